"""Which version of `oil` the model reads like. Changed together with the program."""

OVERRIDE_ANY = True  # `oil make --override-any`
LOCALS = True  # Mini has `var` and `with`
