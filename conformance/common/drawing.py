"""The picture of a script as docs/FORMATS.md has it, drawn plainly from the states of conformance/common/model.py."""
import model

HEAD = """digraph plan {
  graph [rankdir=LR, fontname="Helvetica"];
  node [fontname="Helvetica", fontsize=11];
  edge [fontname="Helvetica", fontsize=9];
"""
SHAPES = {
    "source": "ellipse",
    "handle": "hexagon",
    "whenComplete": "hexagon",
    "exceptionally": "hexagon",
    "compose": "parallelogram",
    "exceptionallyCompose": "parallelogram",
    "allOf": "invtrapezium",
    "anyOf": "invhouse",
    **{form: "invtrapezium" for form in model.BOTH},
    **{form: "invhouse" for form in model.EITHER},
}
LOOKS = {
    "pending": 'style="filled,dotted", fillcolor=gray95',
    "ready": 'style="filled,bold", fillcolor=khaki1',
    "claimed": 'style="filled,bold,dashed", fillcolor=lightblue',
    "linked": 'style="filled,dashed", fillcolor=lightblue',
    "value": "style=filled, fillcolor=darkseagreen1",
    "fault": "style=filled, peripheries=2, fillcolor=lightcoral",
    "cancelled": 'style="filled,dashed", peripheries=2, fillcolor=burlywood1',
}


def function_text(said):
    """A function in the words of a script, behind a blank."""
    if isinstance(said, str):
        return " " + said
    name, content = next(iter(said.items()))
    parts = content if isinstance(content, list) else [content]
    return " ".join(["", name] + ["null" if part is None else str(part) for part in parts])


def names_of(script):
    """The names of stages, attached ones too: those of the list, and else their own."""
    attached = [step[1] for step in script.get("steps", []) if step[0] == "attach"]
    names = [stage.get("name", "") for stage in script["stages"] + attached]
    listed = script.get("names", [])
    return [(listed[i] if i < len(listed) else "") or (names[i] if i < len(names) else "") for i in range(max(len(names), len(listed)))]


def label_of(name):
    """A name before a form, with nothing in it that could end the label."""
    told = {'"': '\\"', "\\": "\\\\", "&": "&amp;", "<": "&lt;", ">": "&gt;"}
    hidden = [*range(32), *range(127, 160), 0x200E, 0x200F, *range(0x2028, 0x202F), *range(0x2066, 0x206A)]
    return "".join(told.get(c, "\ufffd" if ord(c) in hidden else c) for c in name) + (": " if name else "")


def look_of(kept):
    if kept[0] != "settled":
        return LOOKS[kept[0]]
    outcome = kept[1]
    return LOOKS["value" if outcome[0] == "value" else "cancelled" if outcome[1] == ("cancelled",) else "fault"]


def named(stage, functions, links, i):
    """The stages that stage i may take its outcome from, by a finish or else by its function."""
    if stage.form not in model.LINKS:
        return []
    if links.get(i) is not None:
        return [links[i]]
    said = functions[stage.function]
    content = said.get("goto", said.get("select", [])) if isinstance(said, dict) else []
    return content if isinstance(content, list) else [content]


def picture(script):
    """The whole text of a right script's picture, and how many edges it has."""
    plan, functions = model.plan_of(script)
    state, links = model.start(plan, model.room_of(script)), {}
    for step in script.get("steps", []):
        line, state = model.do(state, step, functions)
        if step[0] == "finish" and line == "won":
            links[step[2]] = step[3].get("link")
    lines, edges, names = [], 0, names_of(script) + [""] * len(state.stages)
    for i, (stage, kept) in enumerate(zip(state.plan.stages, state.stages)):
        said = "" if stage.function is None else function_text(functions[stage.function])
        end = model.outcome_text(kept[1]) if kept[0] == "settled" else kept[0]
        shape = SHAPES.get(stage.form, "box")
        lines.append(f's{i} [label="{i} {label_of(names[i])}{stage.form}{said}\\n{end}", shape={shape}, {look_of(kept)}];')
        for k, j in enumerate(stage.sources):
            label = f' [label="{k + 1}"]' if stage.form in ("combine", "acceptBoth") else ""
            lines.append(f"s{j} -> s{i}{label};")
        linked = [j for j in named(stage, functions, links, i) if j < i]
        lines += [f's{j} -> s{i} [label="link", style=dashed];' for j in linked]
        edges += len(stage.sources) + len(linked)
    for k, limit in enumerate(plan.limits):
        if limit.outcome[0] == "value":
            what = f"complete {limit.at} value {model.value_text(limit.outcome[1])}"
        else:
            what = " ".join([f"timeout {limit.at}", *(f"code {code}" for code in limit.outcome[1][1:])])
        lines += [f'l{k} [label="{what}", shape=note, style=solid, fontsize=9];', f"l{k} -> s{limit.stage} [style=dotted, arrowhead=none];"]
        edges += 1
    return HEAD + "".join(f"  {line}\n" for line in lines) + "}\n", edges
