//! A child of the published clause module: hands out its single-clause parser.

use super::{ClauseRegistry, LocatedClause};
use nom::IResult;

pub(crate) fn parse_clause<'a>(registry: &ClauseRegistry, input: &'a str) -> IResult<&'a str, LocatedClause<'a>> {
    registry.parse_clause(input)
}
