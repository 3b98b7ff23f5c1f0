"""What functions of the user's take and give, by their signatures.

| Module | |
|---|---|
| `parameters` | the parameters of a function, and what each is annotated with |
| `fits` | values of JSON that fit an annotation: the params of methods |
| `calls` | how a method is called: whole params, or an array or an object that fills its parameters; and the request |
| `marks` | functions of classes that are marked as methods |
| `functions` | functions that the members of an object fill, with the schema of these: tools, prompts and resources |
| `schemas`, `checker` | JSON Schemas: made of annotations, and given by hand |
| `docstrings` | what a docstring says of a function and of its parameters |
| `readers`, `values` | what holds a value to a schema, and the types of the standard library that JSON has as texts |

A server of plain methods imports the first four, and none of them imports `inspect` or `typing` until a function needs
it. The others are imported by tool servers.
"""
