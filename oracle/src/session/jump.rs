//! The jump to a line: the closure that the original runs after Enter, on a screen that notes what is asked of it.

use crate::counts::Counts;
use crate::differences::Difference;
use crate::display::DisplayAction;
use crate::rules::refusals::{LISTING_TOO_LONG, LONGEST_LISTING, NO_LINES};
use crate::screen::Screen;
use crate::script::reply::Jump;

/// `enter` is what Enter was answered with, and `text` what was typed.
pub fn jump(enter: DisplayAction, text: &str, lines: u64, counts: &mut Counts) -> Jump {
    if lines > LONGEST_LISTING {
        counts.differs(Difference::LongListing);
        if percentage_overflows(text, lines) {
            counts.differs(Difference::PercentageOfLongListing);
        }
        return Jump::Refused(LISTING_TOO_LONG.number);
    }
    let DisplayAction::Run(mut run) = enter else { panic!("Enter is answered with something to run") };
    let mut screen = Screen::of(lines as usize);
    let action = run(&mut screen).unwrap_or_else(|error| panic!("a jump makes no error: {error:?}"));
    assert!(screen.prompt_cleared, "Enter closes the prompt");
    match (action, screen.scrolled_to, screen.error) {
        (DisplayAction::Quit, None, None) => Jump::Quit,
        (DisplayAction::Render, None, None) => Jump::Stay,
        (DisplayAction::Render, None, Some(words)) => Jump::Refused(refusal_for(&words)),
        (DisplayAction::Render, Some(line), None) => ruled(line, text, lines, counts),
        _ => panic!("a jump goes one way"),
    }
}

/// The words of the integer parser, as the original shows them.
fn refusal_for(words: &str) -> u8 {
    match words {
        "cannot parse integer from empty string" => 20,
        "invalid digit found in string" => 21,
        "number too large to fit in target type" => 22,
        "number too small to fit in target type" => 23,
        _ => panic!("{words:?} is no fault of a number"),
    }
}

/// A number was read, and the original goes to this line.
fn ruled(line: usize, text: &str, lines: u64, counts: &mut Counts) -> Jump {
    if lines == 0 {
        counts.differs(Difference::JumpWithoutLines);
        return Jump::Refused(NO_LINES.number);
    }
    if line == usize::MAX && text.parse() == Ok(-(lines as i64)) {
        counts.differs(Difference::JumpToMinusLines);
        return Jump::Line(0);
    }
    Jump::Line(line as u64)
}

/// Whether the original's product would pass what an `isize` holds.
fn percentage_overflows(text: &str, lines: u64) -> bool {
    let Some(Ok(percent)) = text.strip_suffix('%').map(str::parse::<i64>) else { return false };
    let held = percent.clamp(-100, 100);
    let percent = if held < 0 { held + 100 } else { held };
    let product = i128::from(percent) * (i128::from(lines as i64) - 1);
    i64::try_from(product).is_err()
}
