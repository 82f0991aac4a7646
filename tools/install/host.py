"""A host of the installed library, in Python (host.c)."""

from dataclasses import replace

import laddertick

FILE, REFUSED = b'R10,20\nLO5,6,30,4\nA5,40,0,2,1,1,N,"Bag 7"\nP2,3\n', b'N\nB0,0,0,1D,2,2,9,B,"x"\n'
print("version", laddertick.version())
for label in laddertick.labels(FILE):
    for element in label.elements:
        if element.text:
            print(f"text at {element.x},{element.y}: {element.text}")
    print(f"label: {len(label.elements)} elements, {label.sets} sets, {label.copies} copies")
lengths = len(laddertick.listing(FILE)), len(laddertick.normalise(FILE)), len(laddertick.join(FILE, FILE))
print("list {}, normalise {}, join {} bytes".format(*lengths))
try:
    list(laddertick.steps(REFUSED))
except laddertick.Refused as refused:
    assert refused.refusal is laddertick.Refusal.BARCODE_TYPE
    print(f"refused {refused.number} at {refused.place}: {refused.meaning}")
label = list(laddertick.labels(FILE))[0]
box, text = label.elements
changed = replace(label, elements=(box, replace(text, data=b"Bag 8")))
print("write", laddertick.write(changed.elements[1]).decode(), end="")
written = laddertick.write_label(changed)
print(f"write_label {len(written)} bytes, read again {len(laddertick.listing(written))}")
print("write_label_300", laddertick.write_label_300(laddertick.Index.of(FILE).to_300(0)).decode(), end="")
try:
    laddertick.write(replace(box, width=-1))
except laddertick.Refused as refused:
    print(f"refused {refused.number} at {refused.place}: {refused.meaning}")
