// The ledgers that reports are measured on: LedgerKind of crates/measure, in its order.
enum ledger_kind { NO_SITE, SOME_SITES, ONE_SITE, EITHER_SITES, HEATED_SITES, LEDGER_KINDS };
// The ratio of the meters of the source entries that are measured by one.
enum { MEASURED_RATIO = 40 };
