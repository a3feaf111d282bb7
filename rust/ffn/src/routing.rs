//! Where a text message goes.

use crate::answers::{Failure, Route};
use crate::calls::{answered, error, refusal};
use crate::{c, Msisdn};

/// Says where a text message to a functional number goes. `home` is the node's own
/// international code, `digits` the number asked for, both as characters. Where they
/// are not `coded`, the node's own code is put in front, whatever they begin with.
///
/// The first three digits are the number's code: if they are not the node's own, the
/// answer is [`Route::AskNetwork`], whether or not the number is in the table. It
/// takes no figures, and changes nothing.
///
/// # Errors
/// [`Refusal::TableUnsound`](crate::Refusal::TableUnsound); then
/// [`RequestError::UnexpectedDataValue`](crate::RequestError::UnexpectedDataValue)
/// where the node's code is not exactly three digits, a character is no digit, or
/// there are not 5 to 15 digits with the code.
///
/// # Examples
/// ```
/// use ffn::{routing, Route};
///
/// // 4915100001 holds 0492123401, a number of type 2 with branch 01.
/// let table = [10_492_123_401, 14_915_100_001, 0, 0, 0, 0, 0];
/// let route = Route::Msisdn {
///     msisdn: "4915100001".parse()?,
///     subaddress: Some([0x80, 0x48, 0x10]),
/// };
/// assert_eq!(routing(&table, b"049", b"0492123401", true)?, route);
/// assert_eq!(routing(&table, b"049", b"2123401", false)?, route);
///
/// // Another network knows its own.
/// let foreign = routing(&table, b"049", b"0332123401", true)?;
/// assert_eq!(foreign, Route::AskNetwork(*b"033"));
/// # Ok::<(), Box<dyn std::error::Error>>(())
/// ```
pub fn routing(table: &[u64], home: &[u8], digits: &[u8], coded: bool) -> Result<Route, Failure> {
    let route = c::routing(table, home, digits, coded.into());
    match (route.class, route.number) {
        (c::ROUTED, _) => Ok(Route::Msisdn {
            msisdn: answered(Msisdn::from_word(route.msisdn)),
            subaddress: (route.subaddress_octets > 0).then_some(route.subaddress),
        }),
        (c::ASK_NETWORK, _) => Ok(Route::AskNetwork(route.code)),
        (c::OUTCOME, 41) => Ok(Route::UnknownNumber),
        (c::OUTCOME, 62) => Ok(Route::NoHolder),
        (c::ERROR, number) => Err(Failure::Error(error(number))),
        (c::REFUSAL, number) => Err(Failure::Refused(refusal(number))),
        _ => unreachable!("{route:?}"),
    }
}
