//! The scenes under `examples/`, through the proved liveness entry, held to
//! the answers that stand beside them.

use std::error::Error;
use std::fs;
use std::path::PathBuf;

use probe::capi::liveness;

/// The numbers of the line that begins with a word.
fn list(text: &str, word: &str) -> Option<Vec<i64>> {
    let mut lines = text.lines().map(str::split_whitespace);
    let mut line = lines.find_map(|mut line| (line.next() == Some(word)).then_some(line))?;
    line.try_fold(Vec::new(), |mut numbers, number| {
        numbers.push(number.parse().ok()?);
        Some(numbers)
    })
}

/// What the entry says of the scene, by rules 1 where it names none.
fn answer(text: &str) -> Option<Vec<i64>> {
    let [rules] = list(text, "rules").unwrap_or(vec![1])[..] else {
        return None;
    };
    let [components, ports, frontiers] =
        ["components", "ports", "frontiers"].map(|word| list(text, word));
    let given = match liveness(rules, &components?, &ports?, &frontiers?) {
        Ok(found) => vec![
            0,
            found.region_count,
            found.sources.len() as u64,
            found.inputs.len() as u64,
        ],
        Err(refusal) => vec![refusal.number, refusal.list, refusal.item],
    };
    Some(given.into_iter().map(u64::cast_signed).collect())
}

#[test]
fn each_has_its_answer() -> Result<(), Box<dyn Error>> {
    let folder = PathBuf::from(env!("CARGO_MANIFEST_DIR")).join("../../examples");
    let mut count = 0;
    for entry in fs::read_dir(folder)? {
        let path = entry?.path();
        if path.extension().is_some_and(|it| it == "txt") {
            let text = fs::read_to_string(&path)?;
            let wanted = list(&text, "answer");
            assert!(wanted.is_some(), "{} has no answer", path.display());
            assert_eq!(answer(&text), wanted, "{}", path.display());
            count += 1;
        }
    }
    println!("{count} examples have their answers");
    assert!(count >= 4);
    Ok(())
}
