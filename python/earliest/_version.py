"""The version of the package. It stands here alone: the wheel, the CMake package and `earliest.__version__` read it."""
VERSION = "0.1.0"
