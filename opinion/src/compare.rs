//! Comparing two texts of answers case by case.

/// Splits a text at its `case K` lines; the closing line is a part of its own.
fn parts(text: &str) -> Vec<&str> {
    let mut starts = Vec::new();
    let mut at = 0;
    for line in text.split_inclusive('\n') {
        if at == 0 || line.starts_with("case ") || line.trim_end().ends_with(" cases") {
            starts.push(at);
        }
        at += line.len();
    }
    starts.push(at);
    starts
        .windows(2)
        .map(|pair| &text[pair[0]..pair[1]])
        .collect()
}

/// Prints the comparison and says whether the texts are the same.
pub fn compare(expected: &str, actual: &str) -> bool {
    let (wanted, given) = (parts(expected), parts(actual));
    let longer = wanted.len().max(given.len());
    let part = |parts: &[&str], i: usize| parts.get(i).map_or(String::new(), |s| s.to_string());
    let differing: Vec<usize> = (0..longer)
        .filter(|&i| part(&wanted, i) != part(&given, i))
        .collect();
    let is_case = |i: usize| part(&wanted, i).starts_with("case ");
    let cases = (0..wanted.len()).filter(|&i| is_case(i)).count();
    let differing_cases = differing.iter().filter(|&&i| is_case(i)).count();
    println!("{} of {cases} cases agree", cases - differing_cases);
    if let Some(&first) = differing.first() {
        println!("first difference\n--- expected\n{}", part(&wanted, first));
        println!("--- actual\n{}", part(&given, first));
    }
    differing.is_empty()
}
