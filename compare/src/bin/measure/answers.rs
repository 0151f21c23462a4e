//! Before the times: the library, the plain version and the routine agree on random days and on those that are timed.
use crate::timed::{by_plain, Timed};
use crate::CHECKED;
use compare::days::{self, Case, Random};
use compare::office;
use compare::Verdict;

fn agreed(case: &Case) -> Result<Verdict, String> {
    let office = office::judge(&case.station, &case.day, &case.earlier);
    let plain = by_plain(case);
    if office == plain {
        return Ok(plain);
    }
    Err(format!("{case:?}: library {office:?}, plain {plain:?}"))
}

pub fn check_random(random: &mut Random) -> Result<String, String> {
    let mut answered = 0;
    for _ in 0..CHECKED {
        let verdict = agreed(&days::case(random))?;
        answered += usize::from(verdict.figure().is_some());
    }
    Ok(format!(
        "Answers: the library and the plain version agree on {CHECKED} random days, {answered} of them answered, \
         and on all that is timed."
    ))
}

pub fn check_timed(timed: &Timed) -> Result<(), String> {
    for (place, case) in timed.cases.iter().enumerate() {
        let Verdict::Figure(figure) = agreed(case)? else {
            return Err(format!("{case:?} is not answered"));
        };
        near(
            "the routine in f64",
            timed.double[place].inches(),
            figure,
            0.601,
            case,
        )?;
        // Wide enough for single precision; it shows that the same equation is computed.
        #[cfg(has_fortran)]
        near(
            "the routine in Fortran",
            timed.single[place].inches().into(),
            figure,
            2.0,
            case,
        )?;
    }
    Ok(())
}

fn near(name: &str, inches: f64, figure: u32, margin: f64, case: &Case) -> Result<(), String> {
    if (inches * 1e4 - f64::from(figure)).abs() <= margin {
        return Ok(());
    }
    Err(format!(
        "{case:?}: library {figure}, {name} {inches} inches"
    ))
}
