"""A FlatZinc solution: a line for each variable and array that the model's output needs."""
from .flatzinc import annotation
from .problem import written_set
from .terms import V


def shown(value, kind):
    if kind == "bool":
        return "true" if value else "false"
    return str(int(value))


class Output:
    """What a model wants shown, but for names of the library. `variables` are those of the problem among it."""

    def __init__(self, reader):
        model = reader.model
        self.single = [
            (var.name, var.kind, reader.vars[var.name])
            for var in model.variables.values()
            if annotation(var.annotations, "output_var") and not var.name.startswith("qc_")
        ]
        self.arrays = [
            (array.name, array.kind, annotation(array.annotations, "output_array").args[0], list(map(reader.resolve, array.items)))
            for array in model.arrays.values()
            if annotation(array.annotations, "output_array")
        ]
        items = [it for _, _, it in self.single] + [it for _, _, _, row in self.arrays for it in row]
        self.variables = [it for it in dict.fromkeys(items) if isinstance(it, V)]

    def lines(self, value):
        """The solution's lines, with a value for each variable."""

        def text(it, kind):
            return shown(value[it] if isinstance(it, V) else it, kind)

        lines = [f"{name} = {text(it, kind)};" for name, kind, it in self.single]
        for name, kind, sizes, items in self.arrays:
            sets = ",".join(map(written_set, sizes))
            lines.append(f"{name} = array{len(sizes)}d({sets},[{','.join(text(it, kind) for it in items)}]);")
        return lines
