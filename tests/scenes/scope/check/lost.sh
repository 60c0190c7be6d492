#! /nowhere/interpreter -u
true
