"""Tests of the whole: the C boundary and the example."""
