// Worked workloads.
use crate::workload_text;

/// Four I/O queues beside the admin queue, under weighted round robin. The last Read goes past the end of its
/// namespace.
pub const FIVE_QUEUES: &str = workload_text!(
    "weighted", "0x03010001";
    submission "0x1000", "16", "[
  { op = 5, prp1 = 0x9000, cdw10 = 0x003f0001, cdw11 = 1 },
  { op = 1, prp1 = 0x2000, cdw10 = 0x00070001, cdw11 = 0x00010003 },
  { op = 1, prp1 = 0x3000, cdw10 = 0x00070002, cdw11 = 0x00010003 },
  { op = 1, prp1 = 0x4000, cdw10 = 0x00070003, cdw11 = 0x00010005 },
  { op = 1, prp1 = 0x5000, cdw10 = 0x00070004, cdw11 = 0x00010007 },
]";
    submission "0x2000", "8", "[{ op = 2, nsid = 1, cdw12 = 7, count = 5 }]";
    submission "0x3000", "8", "[{ op = 1, nsid = 1, count = 5 }]";
    submission "0x4000", "8", "[{ op = 0, nsid = 0xffffffff, count = 5 }]";
    submission "0x5000", "8", "[
  { op = 2, nsid = 1, cdw10 = 992, cdw12 = 7, count = 4 },
  { op = 2, nsid = 1, cdw10 = 993, cdw12 = 7 },
]";
    completion "0x8000", "16";
    completion "0x9000", "64";
);

/// The admin queue alone, with no command.
pub const EMPTY: &str = workload_text!(
    "round-robin", "0";
    submission "0x1000", "16", "[]";
    completion "0x8000", "16";
);

/// A queue is deleted while three of its commands wait.
pub const DELETE_THREE: &str = workload_text!(
    "round-robin", "0";
    submission "0x1000", "16", "[
  { op = 5, prp1 = 0x9000, cdw10 = 0x003f0001, cdw11 = 1 },
  { op = 1, prp1 = 0x2000, cdw10 = 0x00070001, cdw11 = 0x00010001 },
  { op = 0, cdw10 = 1 },
]";
    submission "0x2000", "8", "[{ op = 2, nsid = 1, count = 3 }]";
    completion "0x8000", "16";
    completion "0x9000", "64";
);

/// A thousand Reads through rings of two slots.
pub const THOUSAND: &str = workload_text!(
    "round-robin", "0";
    submission "0x1000", "16", "[
  { op = 5, prp1 = 0x9000, cdw10 = 0x00010001, cdw11 = 1 },
  { op = 1, prp1 = 0x2000, cdw10 = 0x00010001, cdw11 = 0x00010001 },
]";
    submission "0x2000", "2", "[{ op = 2, nsid = 1, count = 1000 }]";
    completion "0x8000", "16";
    completion "0x9000", "2";
);

/// A queue is deleted and created again on another region.
pub const CREATED_ANEW: &str = workload_text!(
    "round-robin", "0";
    submission "0x1000", "16", "[
  { op = 5, prp1 = 0x9000, cdw10 = 0x003f0001, cdw11 = 1 },
  { op = 1, prp1 = 0x2000, cdw10 = 0x00070001, cdw11 = 0x00010001 },
  { op = 0, cdw10 = 1 },
  { op = 1, prp1 = 0x3000, cdw10 = 0x00070001, cdw11 = 0x00010001 },
]";
    submission "0x2000", "8", "[{ op = 2, nsid = 1, count = 3 }]";
    submission "0x3000", "8", "[{ op = 2, nsid = 1, count = 2 }]";
    completion "0x8000", "16";
    completion "0x9000", "64";
);
