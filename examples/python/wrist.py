"""A wrist in space, in Python: the forearm hangs from the world by an elbow that locks all six axes, and the hand from the forearm. The wrist locks x and the angles about x and y, and turns freely about z; along
y, the forearm's length, the hand has two millimetres of play and rests at the stop; across, along z, a motor slows it with all the force it has. (In space a stop and a motor are for linear axes: an angular axis is locked or free.)

It prints, in millionths, each row with its id, its impulse, and the rule and the definition that made it; and each joint's reaction, of force and of moment, on both its bodies.

    tools/library && PYTHONPATH=python python3 examples/python/wrist.py [--table | --csv]
"""

import sys

import katydidzinc as kz
from katydidzinc import space


def wrist():
    return space.Study(
        dt=0.015625,
        normalized_max_corrective_velocity=10.0,
        bodies=[
            space.Body("forearm", (0.0, 0.125, 0.0), inverse_inertia=(150.0, 0.0, 0.0, 1000.0, 0.0, 150.0), inverse_masses=(0.75, 0.75, 0.75)),
            space.Body(
                "hand", (0.0, -0.065, 0.0), rotation=(0.02, -0.01, 0.1, 0.99), inverse_inertia=((1200.0, 0.0, 100.0), (0.0, 4000.0, 0.0), (100.0, 0.0, 1000.0)),
                inverse_masses=(2.5, 2.5, 2.5), velocity=(0.25, -0.5, 0.125), angular_velocity=(1.0, -0.5, 2.0),
            ),
        ],
        joints=[
            space.Joint("elbow", "world", "forearm", locked_axes="x y z rx ry rz", frame1=space.Pose(y=0.25), frame2=space.Pose(y=0.125)),
            space.Joint(
                "wrist", "forearm", "hand", locked_axes="x rx ry", frame1=space.Pose(y=-0.125), frame2=space.Pose(y=0.0625),
                limits={"y": kz.Limits(-0.002, 0.002)}, motors={"z": kz.Motor(damping=20.0, max_force=0.125)},
            ),
        ],
    )


def millionths(numbers):
    return " ".join(kz.millionths(x) for x in numbers)


def main():
    study = wrist()
    study.load()
    said = [f"rows = {study.build()}"]
    study.sweep(20)
    study.remove_bias()
    elbow, wrist_motors = study.sweep(4)
    said.append(f"wrist motors out of force = {wrist_motors}")
    study.write_back()
    if sys.argv[1:] == ["--table"]:
        print(study.table(), end="")
        return
    if sys.argv[1:] == ["--csv"]:
        sys.stdout.write(study.table().csv())
        return
    said += [f"{row.joint} {row.id}: {kz.millionths(row.impulse)}, rule {row.rule}, {row.definition}" for row in study.table()]
    for reaction, (body1, body2) in zip(study.reactions(), (("world", "forearm"), ("forearm", "hand"))):
        for body, got in ((body1, reaction.body1), (body2, reaction.body2)):
            said.append(f"{reaction.joint} on {body}: force {millionths(got.force)}, moment {millionths(got.moment)}")
    for name in study.body_names:
        v = study.read_velocity(name)
        said.append(f"{name} moves: {millionths(v.linear)}, turns: {millionths(v.angular)}")
    print("\n".join(said))


main()
