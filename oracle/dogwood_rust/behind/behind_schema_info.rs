// ─── Appended by the oracle's build; the text above is as published ───
