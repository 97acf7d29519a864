//! `lembuya waits`: how long each node's requests stood before their grants, beside request 5's limit.
//!
//! - `limit`: which grants have that limit, and why others don't.
//! - `rows`: the grants of a node and class as one row.
//! - `page`: rows as a table and as JSON.

mod limit;
mod page;
mod rows;

use crate::args::{Args, Options, Wrong};
use crate::{run, End};

pub const OPTIONS: Options = &[("--json", false)];

pub const HELP: &str = "\
lembuya waits [--json] TEXT..

How long the requests of each text stood before they were granted: a row for each node and class with a
grant. TEXT holds a plan and events; '-' is standard input. Times are bit times, 10 ns each.

    grants     how many of its requests were granted; one that never is has no wait and isn't counted
    mean       the mean of their waits, with one digit behind the point, a half rounded up
    greatest   the greatest of them
    limit      of a high request: what that wait can't have been longer than (request 5 of document 02),
               D plus the sum of c = b + O over all other nodes with a reservation in force at the grant.
               A normal request has none, nor has a high one taken as normal, which is in class normal

A wait is the grant's time less the time at which the request was first put up. A replacing request of
the same class keeps that time, and a change of class sets it anew, also the one at a frame's start.

The limit is that of a high request with packets left, over which no reservation changes. So '-' stands
beside the greatest high wait, and why behind it, in two cases, and then it may be longer:

    share spent     the node had had its n high packets of the frame as the request was put up: it is
                    held until the next frame starts
    change          what some node has reserved in force changed while the request stood

If others of the row have the limit, how many and the greatest of them with its limit are said there too.

    --json     one object a row: file, node, class, grants, mean, greatest and limit, or null for it and
               then why ('normal', 'share spent' or 'change') and limited: how many of the row have a
               limit, and of these the greatest with its limit, or null if there is none

A refused line is said on standard error: FILE:LINE: refused NUMBER: the table's words.

Exit status: 0; 1 where a plan is refused; 2 for bad usage.
";

pub fn command(args: &Args) -> Result<End, Wrong> {
    let show = if args.has("--json") { page::objects } else { page::table };
    run::pages(args, |file, text, entries| show(file, &rows::rows(&limit::grants(text, entries))))
}
