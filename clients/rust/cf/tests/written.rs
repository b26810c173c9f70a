//! Histories as serde writes them.
use cf::{Inline, Request};

#[test]
fn a_history_is_written_as_its_account() {
    let request = Request::new("order \"17\"\n", Inline);
    let (user, price) = (request.supply(|| "Ada"), request.try_supply(|| "x".parse::<u32>()));
    let told = user.combine(&price, |user, price| format!("{user} pays {price}")).named("told");
    assert!(told.wait().is_err());
    let history = request.history();
    let account: serde_json::Value = serde_json::from_str(&history.account()).unwrap();
    assert_eq!(serde_json::to_value(&history).unwrap(), account);
    assert_eq!(account["name"], "order \"17\"\n");
    assert_eq!(account["errors"][2], "invalid digit found in string");
}
