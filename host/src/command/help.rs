//! The page of help, and the version.

use super::arguments::Arguments;
use super::{Complaint, Done, ANSWERED};
use crate::quotation::KIT;
use std::ffi::OsString;
use std::io::Read;

pub const NO_COMMAND: &str = "a command is due; `repgypsum help` lists them";

const PAGE: &str = "\
usage: repgypsum COMMAND [OPTIONS] [FILE]          docs/GUIDE.md begins from nothing

  plan          looks for the cheapest plan of a model and prints the answer's line
  explain       plans, and says in sentences what the answer stands on
  check         checks a plan by the proved plan check: prints its answer number, the cost and the low figure
  declarations  looks whether the bounds and preferences of a model are true
  verify        runs a quotation again and compares every count: verify QUOTATION [MODEL]
  compare       says what changed between two quotations: compare OLD NEW
  assemble      a text model to bytes
  expand        a text model to the plain text that its loops, constants and files stand for
  disassemble   the bytes of a model to text
  monthly       plans each file named in a list, one a line, and prints the line of each and the closing line
  figures       the closing line of lines that were joined
  bench         measures the proved search against a fast plain one on families of models
  help          this page; --version prints the version

The model is read from FILE, or from standard input without one or with `-`. A FILE that ends in .dp is a text model and
is assembled first (docs/TEXT.md); every other input is the bytes of a model, except that of assemble and expand, which
is always text. monthly reads a list of names in the place of a model, figures the lines that monthly printed.

plan and explain:
  --width W        widest beam: 1, 2, 4 up to 4096 (16); the rounds have the widths 1, 2, 4 up to it
  --widths LIST    in place of --width, the rounds' own widths: 1 to 16 rising numbers from 1 to 4096 as in 1,200, of which the
                   last is the widest beam
  --length L       length limit: 1 to 256 (64)
  --loading        in place of --length, for pure loading orders: the loading profile chooses the limit
  --profile        the same
  --budget N       the most expansions (100000; no limit of its own with --seconds or --gap)
  --seconds N      stops after N seconds with the last finished answer and its budget
  --gap N          stops when a plan costs at most N more than the bound
  --progress       says on standard error how far the run is, from the start and even where that is no terminal
  --quiet          says nothing of that (else a terminal is told after the first second)
  --plan-bytes N   plan bytes lent to the search, in place of the number due
  --words N        working words lent to the search, in place of the number due
Where a run is watched (a terminal, --progress, --seconds, --gap), budgets are doubled from 1,000 on, and Ctrl-C gives the
last finished answer.

plan:
  --fields         every field of the answer by name, one a line, with --loading the length chosen, then the plan, or the path at
                   refusals 11 to 13 and 17
  --unconditional  plans again without bounds and preferences, and says whether the mark rests on them
  --quote OUT      also writes a quotation to the new file OUT: model, settings, line and steps

explain:
  --svg OUT        also writes the plan as a chart
  --html OUT       also writes one page for the auditor: all of this, the declarations' test, the plan as table and chart, the
                   model, the quotation, and how to run it again
  --lane VARIABLE  draws the steps in lanes, by the variable's value after a step
  --clock VARIABLE draws a step from the number variable's value before it to that after it, in place of its cost

plan, explain, check, declarations, monthly, figures:
  --json           the answer as JSON (docs/JSON.md)

check, one of:
  --plan PLAN      transition numbers (0,1,2 or \"0 1 2\"), names between commas, or a printed line; nothing for no steps
  --plan-hex 0A01  the plan's bytes, two digits each

declarations:
  --states N       the most states that are enumerated, else sampled (50000)
  --walks N        random walks of a sample (1000)
  --seed N         the walks' seed (1)

bench: names of families, `all`, or nothing for orders and tsptw; reads no model

Exit status: 0 for an answer, a plan that passes, a translation, a quotation that is the same, declarations of which none
is shown false; 1 for a refusal, a quotation that differs, a false declaration, a closing line of other lines; 2 for bad
usage, a file that cannot be read or written, or a text with an error.
";

/// The page, whatever the command was.
pub fn page(arguments: &[OsString], _input: &mut dyn Read) -> Result<Done, Complaint> {
    Arguments::none(arguments)?;
    Ok(printed(PAGE.to_string()))
}

pub fn version(arguments: &[OsString], _input: &mut dyn Read) -> Result<Done, Complaint> {
    Arguments::none(arguments)?;
    Ok(printed(format!(
        "repgypsum {}, proved with {}\n",
        env!("CARGO_PKG_VERSION"),
        KIT.trim()
    )))
}

fn printed(text: String) -> Done {
    Done::new(text.into_bytes(), ANSWERED)
}
