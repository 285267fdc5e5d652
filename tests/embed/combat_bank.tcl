# A client over Combat of the bank of examples/bank.idl:
#
#     tclsh combat_bank.tcl deposit REFERENCE ACCOUNT AMOUNT
package require combat

combat::ir add {
    {interface {IDL:Bank:1.0 Bank 1.0} {} {
        {exception {IDL:Bank/Overdrawn:1.0 Overdrawn 1.0} {{balance {long long}}} {}}
        {operation {IDL:Bank/deposit:1.0 deposit 1.0} {long long} {{in account string} {in amount {long long}}}
            IDL:Bank/Overdrawn:1.0}
        {operation {IDL:Bank/balance:1.0 balance 1.0} {long long} {{in account string}} {}}
    }}
}

lassign $argv - reference account amount
corba::init
set bank [corba::string_to_object $reference]
corba::try {
    puts [$bank deposit $account $amount]
} catch {IDL:Bank/Overdrawn:1.0 raised} {
    array set members [lindex $raised 1]
    puts "overdrawn: $members(balance)"
}
