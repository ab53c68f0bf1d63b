"""Tests of the binding of the package `bully`: agents, groups, replicas, rebalances and the rules of a member, by the
library. `try` in the folder above runs them."""
