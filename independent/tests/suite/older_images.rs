//! Images of another length or version, as those without flight times: 232
//! bytes and version 1.

use independent::{answer_image, fresh_image, pass_image, Answered, Keeper};

use crate::caller::{after, UNTOUCHED};
use crate::images::{check_line, image_of};

const START: &str = "(start 7 mm 1 (2 3))";

/// A started keeper's image without its flight times.
fn older() -> [u8; 232] {
    let image = image_of(&after(&["(start 3 im 0 (0 0))", "(request 4)"]));
    let mut older = [0; 232];
    older.copy_from_slice(&image[..232]);
    older[0] = 1;
    older
}

#[test]
fn the_older_length() {
    for version in [1, 2] {
        let mut image = older();
        image[0] = version;
        let before = image;
        let mut out = [UNTOUCHED; 256];
        for line in [START, "(read)", "(pass 1)", "(flight 4 (1 2))", "(x)"] {
            let answered = answer_image(&mut image, line.as_bytes(), &mut out);
            let refused = Answered {
                number: 255,
                length: 0,
            };
            assert_eq!(answered, refused, "{line}");
        }
        assert_eq!(pass_image(&mut image, 1), 255);
        assert_eq!(fresh_image(&mut image), 255);
        assert_eq!(image, before);
        assert_eq!(out, [UNTOUCHED; 256]);
    }
}

/// An older image at the front of a buffer of the new length.
#[test]
fn the_older_version() {
    for rest in [0, 1, UNTOUCHED] {
        let mut image = [rest; 360];
        image[..232].copy_from_slice(&older());
        assert_eq!(Keeper::from_image(&image), None);
        for line in ["(read)", "(waiting)", "(pass 1)", "(flight 4 (1 2))"] {
            assert_eq!(check_line(&mut image, line), 3, "{line}");
        }
        assert_eq!(pass_image(&mut image, 1), 3);
        // A start stores a whole new image.
        assert_eq!(check_line(&mut image, START), 0);
        assert_eq!(image, image_of(&after(&[START])));
        assert_eq!(image[0], 2);
        assert_eq!(image[232..], [0; 128]);
    }
}

/// By its version alone: the other bytes are those of a started keeper.
#[test]
fn every_other_version() {
    let valid = image_of(&after(&["(start 3 im 0 (0 0))", "(flight 4 (1 2))"]));
    for version in 0..=255 {
        let mut image = valid;
        image[0] = version;
        let number = if version == 2 { 0 } else { 3 };
        assert_eq!(check_line(&mut image, "(read)"), number);
    }
}
