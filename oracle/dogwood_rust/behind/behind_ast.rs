// ─── Appended by the oracle's build; the text above is as published ───

// A trait whose `split` on `String` is met before `str::split` in `NamedArg::field_path`: see `field_paths`.
#[allow(unused_imports)]
use crate::field_paths::RecordedPath;
