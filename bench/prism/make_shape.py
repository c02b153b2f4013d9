#!/usr/bin/env python3
"""A shape #1 of one extruded outline, a comb of teeth: make_shape.py POINTS > FILE with a polyline of so many points,
make_shape.py POINTS NAMED > FILE with a list of so many points, of which segments name the first ones, so many."""
import sys
count = int(sys.argv[1])
named = int(sys.argv[2]) if len(sys.argv) > 2 else None
teeth = ((named or count) - 2) // 2
points = [(i * 10, 1000 if i % 2 else 2000 + (i % 7)) for i in range(2 * teeth)] + [((2 * teeth - 1) * 10, 0), (0, 0)]
print("ISO-10303-21;HEADER;FILE_SCHEMA(('IFC4'));ENDSEC;DATA;")
print("#1=IFCPRODUCTDEFINITIONSHAPE($,$,(#2));#2=IFCSHAPEREPRESENTATION($,'Body','SweptSolid',(#3));")
print("#3=IFCEXTRUDEDAREASOLID(#4,$,#6,2500.);#4=IFCARBITRARYCLOSEDPROFILEDEF(.AREA.,$,#5);#6=IFCDIRECTION((0.,0.,1.));")
if named is None:
    print("#5=IFCPOLYLINE((" + ",".join(f"#{i + 10}" for i in range(len(points))) + "));")
    for i, (x, y) in enumerate(points):
        print(f"#{i + 10}=IFCCARTESIANPOINT(({x}.,{y}.));")
else:
    indices = ",".join(str(i + 1) for i in range(len(points)))
    print(f"#5=IFCINDEXEDPOLYCURVE(#7,(IFCLINEINDEX(({indices},1))),.F.);")
    points += [(i, i) for i in range(count - len(points))]
    print("#7=IFCCARTESIANPOINTLIST2D((" + ",".join(f"({x}.,{y}.)" for x, y in points) + "));")
print("ENDSEC;END-ISO-10303-21;")
