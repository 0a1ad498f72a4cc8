#!/usr/bin/python3
"""Lets QGIS's own reader read a server: by_qgis.py BASE (Debian's packages python3-qgis and qgis-providers; QT_QPA_PLATFORM=offscreen)

Of each class that is a collection QGIS has to make a layer with the fields and the count that the server tells, and to find in a box
what the server finds there. Prints a line for each look, and `N passed, M failed` as the last one.
"""
import json
import os
import sys
import urllib.request

os.environ.setdefault('QT_QPA_PLATFORM', 'offscreen')
from qgis.core import QgsApplication, QgsFeatureRequest, QgsRectangle, QgsVectorLayer  # noqa: E402


def asked(address):
    return json.load(urllib.request.urlopen(address))


def matched(base, name, box=None):
    window = '&bbox=' + ','.join(map(str, box)) if box else ''
    return asked(f'{base}/collections/{name}/items?limit=1{window}')['numberMatched']


def places(coordinates):
    return [coordinates] if isinstance(coordinates[0], (int, float)) else [place for part in coordinates for place in places(part)]


def main(base):
    app = QgsApplication([], False)
    app.initQgis()
    looks = []
    for name in [one['id'] for one in asked(base + '/collections')['collections'] if one['id'] != 'features']:
        count = matched(base, name)
        if not count:
            continue
        x, y = places(asked(f'{base}/collections/{name}/items?limit=1')['features'][0]['geometry']['coordinates'])[0]
        box = x - 0.01, y - 0.01, x + 0.01, y + 0.01
        layer = QgsVectorLayer(f"typename='{name}' url='{base}' pagingEnabled='true' pageSize='1000' restrictToRequestBBOX='1'", name, 'OAPIF')
        window = QgsFeatureRequest().setFilterRect(QgsRectangle(*box))
        looks += [(f'{name} is a layer in {layer.crs().authid()}', layer.isValid()),
                  (f'{name} has its fields', [field.name() for field in layer.fields()] == ['id', 'office', 'class', 'version']),
                  (f'{name} has {count} features', layer.featureCount() == count),
                  (f'{name} has {matched(base, name, box)} features in a box', len(list(layer.getFeatures(window))) == matched(base, name, box)),
                  (f'{name} is read to its end', len(list(layer.getFeatures())) == count)]
    for name, right in looks:
        print(('passed  ' if right else 'FAILED  ') + name)
    print(f'{sum(right for _, right in looks)} passed, {sum(not right for _, right in looks)} failed')
    del layer
    app.exitQgis()
    return not all(right for _, right in looks)


if __name__ == '__main__':
    sys.exit(main(sys.argv[1].rstrip('/')))
