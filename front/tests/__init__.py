"""Tests of the front end: `world` has the server and the clients, and each other file a table of tests."""
