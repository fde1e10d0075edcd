/// The report of a loaded run of `DELETE_THREE`: one of the commands was picked before the deletion.
pub const DELETE_THREE_REPORT: &str = "loaded
pick q0 1
pick q0 1
pick q1 1
pick q0 1
sq 0 script 3 submitted 3 fetched 3 picked 3 aborted 0
sq 1 script 3 submitted 3 fetched 3 picked 1 aborted 2
cq 0 collected 3
cq 1 collected 3
cmd 0.0 0/00 00000000
cmd 0.1 0/00 00000000
cmd 0.2 0/00 00000000
cmd 1.0 0/00 00000000
cmd 1.1 0/08 00000000
cmd 1.2 0/08 00000000
end
";
