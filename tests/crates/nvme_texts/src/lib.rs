//! What the tests of several crates share: worked workloads, a report, and writers that fail or take little.

mod reports;
mod workloads;
mod writers;

pub use reports::DELETE_THREE_REPORT;
pub use workloads::{CREATED_ANEW, DELETE_THREE, EMPTY, FIVE_QUEUES, THOUSAND};
pub use writers::{Takes, TakesOne};

/// The text of a workload: its mechanism, the settings of its arbitration, its submission regions with their scripts,
/// and its completion regions.
#[macro_export]
macro_rules! workload_text {
    (
        $mechanism:literal, $arbitration:literal;
        $(submission $sq:literal, $sq_slots:literal, $script:literal;)+
        $(completion $cq:literal, $cq_slots:literal;)+
    ) => {
        concat!(
            "mechanism = \"", $mechanism, "\"\n",
            "arbitration = ", $arbitration, "\n",
            "sq_limit = 16\n",
            "cq_limit = 16\n",
            "patience = 100000000\n",
            "namespaces = [1000]\n",
            $(
                "[[submission]]\n",
                "address = ", $sq, "\n",
                "slots = ", $sq_slots, "\n",
                "script = ", $script, "\n",
            )+
            $(
                "[[completion]]\n",
                "address = ", $cq, "\n",
                "slots = ", $cq_slots, "\n",
            )+
        )
    };
}
