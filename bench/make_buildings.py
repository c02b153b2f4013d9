#!/usr/bin/env python3
"""Write the exchange text of a building without a defect, to time the search for its first defect.

usage: make_buildings.py FILE SHAPE [INSTANCES]

SHAPE is one of
  one_relation    walls that one relation gives one material
  many_relations  walls, and as many relations that all give the first wall a material
  shared_chains   walls whose chains of placements share their upper 60
  passed_over     instances of classes that are passed over
INSTANCES are 1,000,000 by default; 100,000 of them are walls, relations or chains.
"""
import sys

HEAD = """ISO-10303-21;
HEADER;
FILE_DESCRIPTION(('ViewDefinition [ReferenceView]'),'2;1');
FILE_NAME('building.ifc','2025-01-01T00:00:00',('author'),('office'),'maker','maker','');
FILE_SCHEMA(('IFC4'));
ENDSEC;
DATA;
#1=IFCUNITASSIGNMENT((#2));
#2=IFCSIUNIT(*,.LENGTHUNIT.,.MILLI.,.METRE.);
#3=IFCBUILDING('1',$,$,$,$,#4,$,$,.ELEMENT.,$,$,$);
#4=IFCLOCALPLACEMENT($,#5);
#5=IFCAXIS2PLACEMENT3D(#6,$,$);
#6=IFCCARTESIANPOINT((0.,0.,0.));
#7=IFCDIRECTION((0.,0.,1.));
#8=IFCMATERIAL('brick',$,$);
"""
TAIL = "ENDSEC;\nEND-ISO-10303-21;\n"
FIRST = 10


def position(first, above):
    """A placement with its position and its point, three instances."""
    return (
        f"#{first}=IFCLOCALPLACEMENT(#{above},#{first + 1});\n"
        f"#{first + 1}=IFCAXIS2PLACEMENT3D(#{first + 2},$,$);\n"
        f"#{first + 2}=IFCCARTESIANPOINT(({first % 400_000}.,0.,0.));\n"
    )


def box(first):
    """A definition shape with its box, six instances."""
    shape, body, solid, profile, flat, middle = range(first, first + 6)
    return (
        f"#{shape}=IFCPRODUCTDEFINITIONSHAPE($,$,(#{body}));\n"
        f"#{body}=IFCSHAPEREPRESENTATION($,'Body','SweptSolid',(#{solid}));\n"
        f"#{solid}=IFCEXTRUDEDAREASOLID(#{profile},#5,#7,3000.);\n"
        f"#{profile}=IFCRECTANGLEPROFILEDEF(.AREA.,$,#{flat},4000.,300.);\n"
        f"#{flat}=IFCAXIS2PLACEMENT2D(#{middle},$);\n"
        f"#{middle}=IFCCARTESIANPOINT((2000.,150.));\n"
    )


def wall(first):
    """A wall with its placement and its shape, ten instances."""
    return (
        f"#{first}=IFCWALL('{first:022}',$,$,$,$,#{first + 1},#{first + 4},$,.STANDARD.);\n"
        + position(first + 1, 4)
        + box(first + 4)
    )


def one_relation(out, instances):
    walls = range(FIRST, FIRST + instances // 10 * 10, 10)
    for first in walls:
        out.write(wall(first))
    listed = ",".join(f"#{first}" for first in walls)
    out.write(f"#{walls.stop}=IFCRELASSOCIATESMATERIAL('',$,$,$,({listed}),#8);\n")


def many_relations(out, instances):
    relations = instances // 10
    walls = range(FIRST, FIRST + (instances - relations) // 10 * 10, 10)
    for first in walls:
        out.write(wall(first))
    for number in range(walls.stop, walls.stop + relations):
        out.write(f"#{number}=IFCRELASSOCIATESMATERIAL('',$,$,$,(#{FIRST}),#8);\n")


def shared_chains(out, instances):
    out.write(box(FIRST))
    above = 4
    for first in range(20, 200, 3):
        out.write(position(first, above))
        above = first
    for first in range(200, 200 + instances // 10 * 10, 10):
        out.write(f"#{first}=IFCWALL('',$,$,$,$,#{first + 7},#{FIRST},$,$);\n")
        out.write(position(first + 1, above) + position(first + 4, first + 1) + position(first + 7, first + 4))


def passed_over(out, instances):
    for number in range(FIRST, FIRST + instances, 2):
        out.write(
            f"#{number}=IFCPROPERTYSINGLEVALUE('Reference',$,IFCIDENTIFIER('W{number}'),$);\n"
            f"#{number + 1}=IFCFURNISHINGELEMENT('',$,$,$,$,$,#{number},$);\n"
        )


SHAPES = {shape.__name__: shape for shape in (one_relation, many_relations, shared_chains, passed_over)}

if __name__ == "__main__":
    if not 3 <= len(sys.argv) <= 4 or sys.argv[2] not in SHAPES:
        sys.exit(__doc__)
    with open(sys.argv[1], "w", encoding="ascii", newline="\n") as text:
        text.write(HEAD)
        SHAPES[sys.argv[2]](text, int(*sys.argv[3:]) if sys.argv[3:] else 1_000_000)
        text.write(TAIL)
