//! Keepers in different states, each reached by lines.

use crate::limits::{Image, IMAGE_LENGTH, SHORTEST_OUTPUT};
use crate::test::Test;

/// Not started; started with nothing waiting; with some and with all peers
/// waiting; under both rules; near each end of the range; with flight times.
pub fn all(test: &mut Test) -> Vec<Image> {
    let some = ["(request 4)", "(pass 7)", "(request 15)"];
    let mut full: Vec<String> = vec!["(start 3 im 200 (-1000 1000))".into()];
    for peer in (0..16).filter(|&peer| peer != 3) {
        full.push(format!("(request {peer})"));
        full.push("(pass 1)".into());
    }
    let full: Vec<&str> = full.iter().map(String::as_str).collect();
    let mut runs: Vec<Vec<&str>> = vec![vec![], full];
    for start in [
        "(start 3 im 200 (-1000 1000))",
        "(start 3 mm 200 (-1000 1000))",
        "(start 0 mm 50000 (-4000000000000000000 -3999999999000000000))",
        "(start 14 im 0 (3999999999000000000 4000000000000000000))",
        "(start 7 mm 0 (-4000000000000000000 4000000000000000000))",
    ] {
        runs.push(vec![start]);
        runs.push([&[start], &some[..]].concat());
    }
    runs.push(vec![
        "(start 3 mm 200 (-5000000 5000000))",
        "(flight 4 (1000 2000))",
        "(flight 15 (1000000000 999999999))",
        "(flight 0 (67305985 134678021))",
        "(request 4)",
        "(pass 7)",
        "(request 15)",
    ]);
    runs.iter().map(|lines| after(test, lines)).collect()
}

/// The keeper after these lines.
pub fn after(test: &mut Test, lines: &[&str]) -> Image {
    let mut image = [0; IMAGE_LENGTH];
    test.fresh(&mut image);
    for line in lines {
        test.line(&mut image, line.as_bytes(), SHORTEST_OUTPUT);
    }
    image
}
