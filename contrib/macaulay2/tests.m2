-- Runs the tests of the package: M2 --script tests.m2, with FMOD set to the program.
needsPackage("FModules", FileName => currentFileDirectory | "FModules.m2")
check FModules
