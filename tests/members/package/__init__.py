"""Tests of the package `bully` but for its binding: stores, watchdogs, members, pages and commands, each by itself."""
