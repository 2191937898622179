"""A leg in Python: thigh, shank and foot hang from the world by hip, knee and ankle. The hip has a motor, the straight knee rests at its stop, the
ankle has both. It prints how many motors ran out of force, the impulse of every row and the velocity of every body, in millionths.

    tools/library && PYTHONPATH=python python3 examples/python/leg.py [--table | --csv | --plot FILE]
"""

import sys

import katydidzinc as kz

PLANE = kz.LIN_X | kz.LIN_Y


def leg():
    return kz.Study(
        dt=0.015625,
        normalized_max_corrective_velocity=10.0,
        bodies=[
            kz.Body("thigh", (0.0, 0.75), inverse_inertia=10.0, inverse_masses=(0.125, 0.125), velocity=(0.5, -0.25), angular_velocity=1.5),
            kz.Body("shank", (0.0, 0.3), inverse_inertia=20.0, inverse_masses=(0.25, 0.25), velocity=(0.25, -0.25), angular_velocity=-2.0),
            kz.Body("foot", (0.0625, 0.03125), inverse_inertia=200.0, inverse_masses=(1.0, 1.0), velocity=(0.0, -0.25), angular_velocity=0.5),
        ],
        joints=[
            kz.Joint(
                "hip", kz.WORLD, "thigh", PLANE, motor_axes=kz.ANG_X, frame1=kz.Pose(0.0, 1.0), frame2=kz.Pose(0.0, 0.25),
                motors={2: kz.Motor(target_vel=1.0, damping=10.0, max_force=50.0)},
            ),
            kz.Joint(
                "knee", "thigh", "shank", PLANE, limit_axes=kz.ANG_X, frame1=kz.Pose(0.0, -0.25), frame2=kz.Pose(0.0, 0.2),
                limits={2: kz.Limits(0.0, 2.4)},
            ),
            kz.Joint(
                "ankle", "shank", "foot", PLANE, limit_axes=kz.ANG_X, motor_axes=kz.ANG_X, frame1=kz.Pose(0.0, -0.2), frame2=kz.Pose(-0.0625, 0.06875),
                limits={2: kz.Limits(-0.5, 0.5)}, motors={2: kz.Motor(damping=5.0, max_force=30.0)},
            ),
        ],
    )


def main():
    study = leg()
    study.load()
    said = [f"rows = {study.build()}"]
    study.sweep(20)
    said.append("sweep 20 = granted")
    study.remove_bias()
    said.append("bias removal = granted")
    hip, knee, ankle = study.sweep(4)
    said.append("sweep 4 = granted")
    said += [f"hip motors out of force = {hip}", f"ankle motors out of force = {ankle}"]
    study.write_back()
    said.append("write-back = granted")
    if sys.argv[1:] == ["--table"]:
        print(study.table(), end="")
    elif sys.argv[1:] == ["--csv"]:
        sys.stdout.write(study.table().csv())
    elif sys.argv[1:2] == ["--plot"]:
        study.plot(*sys.argv[2:])
    else:
        names = {"Dof0": "lock x", "Dof1": "lock y", "Limit2": "stop", "Motor2": "motor"}
        for name in study.joint_names:
            said += [f"{name} {names[row.id]}: {kz.millionths(row.impulse)}" for row in study.read_rows(name)]
        for name in study.body_names:
            v = study.read_velocity(name)
            said.append(f"{name} moves: {kz.millionths(v.x)} {kz.millionths(v.y)}, turns: {kz.millionths(v.angular)}")
        print("\n".join(said))


main()
