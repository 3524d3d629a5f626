"""The recipes: scrubs of recordings for different readers, and looks at what is left.

`cli` has the command line. `program` runs the program jfr and reads what it writes; `staging` makes outputs, which get
their names only when they are complete; `shown` makes names safe to show. The other modules are the recipes.
"""
