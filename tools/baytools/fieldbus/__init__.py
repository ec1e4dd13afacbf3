"""A process of a bay whose switches hang on input and output modules: what tools/modbus and
tools/gpio are made of."""
