"""Tests of the tools. Each ends in some seconds, and where a program could hang, there is a time-out."""
