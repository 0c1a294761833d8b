//! What versions 2 and 3 of a condition brought changes no report: tried on the published Rust, with random conditions.

use oracle::cases::{Case, Operation, Outcome};
use oracle::examples::windows::period_bytes;
use oracle::generate::{self, values, windows, Scene};
use oracle::pieces::Piece;
use oracle::rng::Rng;

/// The outcome of a condition in a scene; none where the condition is refused.
fn outcome(operation: Operation, scene: &Scene, condition: &Piece) -> Option<Outcome> {
    let condition = condition.bytes();
    let records = match operation {
        Operation::Check => vec![scene.schema.bytes(), condition, scene.targets.bytes()],
        Operation::Windows => vec![condition, period_bytes(60)],
        _ => vec![condition],
    };
    let outcome = Case { operation, records, size: 4_096 }.outcome()?;
    match &outcome {
        Outcome::Answered(answer, _) if answer.record == 2 => None,
        _ => Some(outcome),
    }
}

/// The same tree in versions 1, 2 and 3 has the same number, count, visits and bytes of the buffer; of a listing, which is
/// about the windows, this holds of versions 2 and 3.
#[test]
fn windows_and_values_change_no_report() {
    let mut rng = Rng::new(104);
    for operation in [Operation::Check, Operation::Sums, Operation::Windows] {
        let mut compared = [0, 0];
        for _ in 0..600 {
            let scene = generate::scene_in(&mut rng, operation, 1);
            let windowed = windows::windowed(&mut rng, &scene.condition);
            let valued = values::valued(&mut rng, &windowed);
            let [plain, second, third] =
                [&scene.condition, &windowed, &valued].map(|condition| outcome(operation, &scene, condition));
            if let (Some(plain), Some(second), true) = (plain, &second, operation != Operation::Windows) {
                assert_eq!(plain, *second);
                compared[0] += 1;
            }
            if let (Some(second), Some(third)) = (second, third) {
                assert_eq!(second, third);
                compared[1] += 1;
            }
        }
        assert!(operation == Operation::Windows || compared[0] > 400, "{compared:?}");
        assert!(compared[1] > 300, "{compared:?}");
    }
}
