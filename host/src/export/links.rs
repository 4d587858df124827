//! Symbolic links that stay inside of the folder that is exported.

/// Whether a link in a folder so many steps below the top stays inside, whatever other
/// such links it leads through: it goes up first, to the top at most, and then down
/// only. One that goes up behind a name may do so from where a link has led.
pub fn stays_inside(target: &[u8], depth: usize) -> bool {
    let steps = target.split(|&byte| byte == b'/');
    let steps: Vec<&[u8]> = steps
        .filter(|step| ![&b""[..], b"."].contains(step))
        .collect();
    let is_up = |step: &&[u8]| *step == b"..";
    let ups = steps.iter().take_while(|step| is_up(step)).count();
    let is_relative = !target.is_empty() && !target.starts_with(b"/");
    is_relative && ups <= depth && !steps[ups..].iter().any(is_up)
}

#[cfg(test)]
mod tests {
    use super::*;

    #[test]
    fn links_stay_inside_or_not() {
        let inside = [
            ("a", 0),
            ("a/b", 0),
            ("./a//b/", 0),
            (".", 0),
            ("...", 0),
            ("..", 1),
            ("../a", 1),
            (".././../a", 2),
        ];
        for (target, depth) in inside {
            assert!(stays_inside(target.as_bytes(), depth), "{target} {depth}");
        }
        let outside = [
            ("", 9),
            ("/", 9),
            ("/etc/passwd", 9),
            ("//a", 9),
            ("..", 0),
            ("../a", 0),
            ("../../a", 1),
            ("./../a", 0),
            ("a/..", 9),
            ("a/../../b", 0),
            ("../a/../b", 9),
        ];
        for (target, depth) in outside {
            assert!(!stays_inside(target.as_bytes(), depth), "{target} {depth}");
        }
    }
}
