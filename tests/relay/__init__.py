"""The tests of the program `lemonrudder` of relay/."""
