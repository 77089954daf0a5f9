"""Plans that were found in the forecast, carried out on real devices."""

import os
import subprocess

from quick import remove

TOUCH, COPY, DELETE = 1, 2, 3


def carry_out(plans, devices):
    """Carries out all plans on stopped devices' disks."""
    for plan in plans:
        for step in plan["Plan"]["Steps"] or [] if plan["Found"] else []:
            path = devices[step["Device"]].files / step["Name"]
            if step["Act"] == TOUCH:
                os.utime(path)
            elif step["Act"] == DELETE:
                remove(path)
            elif step["Act"] == COPY:
                remove(path)
                path.parent.mkdir(parents=True, exist_ok=True)
                subprocess.run(["cp", "-a", devices[step["From"]].files / step["Name"], path], check=True)


def with_plans(forecast):
    """The forecast in which groups of names with a plan have the ends of the plan."""
    planned = {name: plan["Plan"]["Answer"] for plan in forecast["plans"] if plan["Found"] for name in plan["Plan"]["Answer"]["Names"]}
    steps = [len(plan["Plan"]["Steps"] or []) for plan in forecast["plans"] if plan["Found"]]
    without = sum(not plan["Found"] for plan in forecast["plans"])
    print(f"{len(steps)} plans, {sum(map(bool, steps))} of them with steps, {sum(count > 1 for count in steps)} with more than one; no plan for {without} goals")
    answers = [answer for answer in forecast["answers"] if not any(name in planned for name in answer["Names"])]
    return {"answers": answers + [plan["Plan"]["Answer"] for plan in forecast["plans"] if plan["Found"]]}
