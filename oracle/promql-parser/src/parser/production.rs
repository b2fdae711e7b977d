//! Stub: the grammar's productions are not among the published files.
