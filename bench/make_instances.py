#!/usr/bin/env python3
"""Write an exchange text of ordinary instances, to time readers of it.

usage: make_instances.py FILE [MEGABYTES] [SEED]

Walls with their placements, profiles and solids, in the mix of lengths that authoring tools write.
MEGABYTES are 10^6 bytes, 60 by default; SEED chooses the sizes of the walls.
"""
import random
import sys

HEAD = """ISO-10303-21;
HEADER;
FILE_DESCRIPTION(('ViewDefinition [ReferenceView]'),'2;1');
FILE_NAME('instances.ifc','2025-01-01T00:00:00',('author'),('office'),'maker','maker','');
FILE_SCHEMA(('IFC4'));
ENDSEC;
DATA;
#1=IFCCARTESIANPOINT((0.,0.,0.));
#2=IFCAXIS2PLACEMENT3D(#1,$,$);
#3=IFCLOCALPLACEMENT($,#2);
#4=IFCDIRECTION((0.,0.,1.));
#5=IFCGEOMETRICREPRESENTATIONCONTEXT($,'Model',3,1.E-05,#2,$);
"""
TAIL = "ENDSEC;\nEND-ISO-10303-21;\n"
GLOBAL_ID = "0123456789ABCDEFGHIJKLMNOPQRSTUVWXYZabcdefghijklmnopqrstuvwxyz_$"


def global_id(number):
    digits = []
    for _ in range(22):
        number, digit = divmod(number, 64)
        digits.append(GLOBAL_ID[digit])
    return "".join(reversed(digits))


def wall(first, dice):
    """Ten instances from #first on."""
    x, y, z = (dice.randrange(0, 400_000) for _ in range(3))
    long, thick, high = dice.randrange(400, 9000), dice.randrange(90, 420), dice.randrange(2400, 4200)
    point, axis, place, middle, flat, profile, solid, body, shape, product = range(first, first + 10)
    return (
        f"#{point}=IFCCARTESIANPOINT(({x}.,{y}.,{z}.));\n"
        f"#{axis}=IFCAXIS2PLACEMENT3D(#{point},$,$);\n"
        f"#{place}=IFCLOCALPLACEMENT(#3,#{axis});\n"
        f"#{middle}=IFCCARTESIANPOINT(({long / 2},{thick / 2}));\n"
        f"#{flat}=IFCAXIS2PLACEMENT2D(#{middle},$);\n"
        f"#{profile}=IFCRECTANGLEPROFILEDEF(.AREA.,$,#{flat},{long}.,{thick}.);\n"
        f"#{solid}=IFCEXTRUDEDAREASOLID(#{profile},#2,#4,{high}.);\n"
        f"#{body}=IFCSHAPEREPRESENTATION(#5,'Body','SweptSolid',(#{solid}));\n"
        f"#{shape}=IFCPRODUCTDEFINITIONSHAPE($,$,(#{body}));\n"
        f"#{product}=IFCWALL('{global_id(product)}',$,'Wall {product}',$,$,#{place},#{shape},$,.STANDARD.);\n"
    )


def main(path, megabytes=60.0, seed=1):
    dice = random.Random(seed)
    left = int(megabytes * 1_000_000) - len(HEAD) - len(TAIL)
    first = 10
    with open(path, "w", encoding="ascii", newline="\n") as out:
        out.write(HEAD)
        while True:
            text = wall(first, dice)
            if len(text) > left:
                break
            out.write(text)
            left -= len(text)
            first += 10
        out.write(TAIL)
    print(f"{path}: {first - 5} instances")


if __name__ == "__main__":
    if not 2 <= len(sys.argv) <= 4:
        sys.exit(__doc__)
    main(sys.argv[1], *(float(word) for word in sys.argv[2:3]), *(int(word) for word in sys.argv[3:4]))
