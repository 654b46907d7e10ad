//! `--help` on the command and on each of its parts.

use crate::program::shell;

const HELP: [(&str, &str); 7] = [
    ("", include_str!("../../src/cli/help/all.txt")),
    ("check", include_str!("../../src/cli/help/check.txt")),
    ("run", include_str!("../../src/cli/help/run.txt")),
    ("show", include_str!("../../src/cli/help/show.txt")),
    ("slice", include_str!("../../src/cli/help/slice.txt")),
    ("script", include_str!("../../src/cli/help/script.txt")),
    ("graph", include_str!("../../src/cli/help/graph.txt")),
];

#[test]
fn help_is_given_everywhere_and_in_every_way() {
    for (command, text) in HELP {
        for line in [format!("{command} --help"), format!("{command} -h"), format!("help {command}")] {
            let output = shell(&format!("kadvitul {line}"), "help");
            assert_eq!(String::from_utf8_lossy(&output.stdout), text, "kadvitul {line}");
            assert_eq!(output.status.code(), Some(0), "kadvitul {line}");
        }
    }
}

#[test]
fn help_is_given_where_the_rest_is_wrong() {
    let output = shell("kadvitul check -k nothing --help s0=1", "help-wrong");
    assert_eq!(output.status.code(), Some(0));
}

#[test]
fn help_fits_a_terminal() {
    for (command, text) in HELP {
        assert!(text.lines().all(|line| line.len() <= 100), "{command}");
        assert!(text.contains("Exit status"), "{command}");
    }
}
