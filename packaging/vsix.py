#!/usr/bin/env python3
"""vsix.py TREE FOLDER: packs editors/vscode of TREE as an extension that Visual Studio Code installs, FOLDER/humpipe-VERSION.vsix: a zip file with the
extension's files, a manifest, and a list of what the kinds of files are."""
import json
import os
import sys
from xml.sax.saxutils import escape, quoteattr

from wheel import below, read, zipped

KINDS = {'.json': 'application/json', '.md': 'text/markdown', '.vsixmanifest': 'text/xml', '.txt': 'text/plain'}


def manifest(package):
    """The manifest, by the extension's package.json."""
    return f'''<?xml version="1.0" encoding="utf-8"?>
<PackageManifest Version="2.0.0" xmlns="http://schemas.microsoft.com/developer/vsx-schema/2011">
  <Metadata>
    <Identity Language="en-US" Id={quoteattr(package["name"])} Version={quoteattr(package["version"])} Publisher={quoteattr(package["publisher"])}/>
    <DisplayName>{escape(package["displayName"])}</DisplayName>
    <Description xml:space="preserve">{escape(package["description"])}</Description>
    <Tags>{escape(",".join(package["keywords"]))}</Tags>
    <Categories>{escape(",".join(package["categories"]))}</Categories>
    <Properties>
      <Property Id="Microsoft.VisualStudio.Code.Engine" Value={quoteattr(package["engines"]["vscode"])}/>
    </Properties>
    <License>extension/LICENSE.txt</License>
  </Metadata>
  <Installation>
    <InstallationTarget Id="Microsoft.VisualStudio.Code"/>
  </Installation>
  <Dependencies/>
  <Assets>
    <Asset Type="Microsoft.VisualStudio.Code.Manifest" Path="extension/package.json" Addressable="true"/>
    <Asset Type="Microsoft.VisualStudio.Services.Content.Details" Path="extension/README.md" Addressable="true"/>
    <Asset Type="Microsoft.VisualStudio.Services.Content.License" Path="extension/LICENSE.txt" Addressable="true"/>
  </Assets>
</PackageManifest>
'''


def types(names):
    """What the kinds of files are, by the ends of their names."""
    ends = sorted({os.path.splitext(name)[1] for name in names})
    lines = ''.join(f'  <Default Extension={quoteattr(end)} ContentType={quoteattr(KINDS[end])}/>\n' for end in ends)
    return f'<?xml version="1.0" encoding="utf-8"?>\n<Types xmlns="http://schemas.openxmlformats.org/package/2006/content-types">\n{lines}</Types>\n'


def main():
    tree, folder = sys.argv[1:]
    files = {f'extension/{name}': read(tree, 'editors', 'vscode', name) for name in below(tree, 'editors/vscode')}
    files['extension/LICENSE.txt'] = read(tree, 'LICENSE')
    package = json.loads(files['extension/package.json'])
    files = {'extension.vsixmanifest': manifest(package).encode(), **files}
    files = {'[Content_Types].xml': types(files).encode(), **files}
    with open(os.path.join(folder, f'humpipe-{package["version"]}.vsix'), 'wb') as file:
        file.write(zipped(files))


main()
