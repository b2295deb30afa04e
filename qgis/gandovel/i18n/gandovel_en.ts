<?xml version="1.0" encoding="utf-8"?>
<!DOCTYPE TS>
<TS version="2.1" language="en">
<context>
    <name>Gandovel</name>
    <message>
        <source>(and {count} more)</source>
        <translation>(and {count} more)</translation>
    </message>
    <message>
        <source>(and {count} more: see the log)</source>
        <translation>(and {count} more: see the log)</translation>
    </message>
    <message>
        <source>({path} is named now.)</source>
        <translation>({path} is named now.)</translation>
    </message>
    <message>
        <source>1 corner</source>
        <translation>1 corner</translation>
    </message>
    <message>
        <source>1 edit of the list was not sent.</source>
        <translation>1 edit of the list was not sent.</translation>
    </message>
    <message>
        <source>1 gap</source>
        <translation>1 gap</translation>
    </message>
    <message>
        <source>1 open gap</source>
        <translation>1 open gap</translation>
    </message>
    <message>
        <source>1 overlap</source>
        <translation>1 overlap</translation>
    </message>
    <message>
        <source>1 part beyond the city</source>
        <translation>1 part beyond the city</translation>
    </message>
    <message>
        <source>1 sliver</source>
        <translation>1 sliver</translation>
    </message>
    <message>
        <source>&lt;p&gt;Applies a clerk's file of edits (&lt;i&gt;split, merge, move, insert, straighten&lt;/i&gt;, one a line, in whole millimetres) to parcels that tile their city. No edit can leave a gap or an overlap: one that does not fit is refused with a reason, and changes nothing.&lt;/p&gt;&lt;p&gt;The edits name records; &lt;b&gt;Prepare&lt;/b&gt; shows which parcel has which. In the output, &lt;i&gt;edited&lt;/i&gt; is 1 for parcels that edits made, and &lt;i&gt;came_from&lt;/i&gt; has the numbers of those that they were. &lt;b&gt;Answers&lt;/b&gt; has a row for each edit.&lt;/p&gt;</source>
        <translation>&lt;p&gt;Applies a clerk's file of edits (&lt;i&gt;split, merge, move, insert, straighten&lt;/i&gt;, one a line, in whole millimetres) to parcels that tile their city. No edit can leave a gap or an overlap: one that does not fit is refused with a reason, and changes nothing.&lt;/p&gt;&lt;p&gt;The edits name records; &lt;b&gt;Prepare&lt;/b&gt; shows which parcel has which. In the output, &lt;i&gt;edited&lt;/i&gt; is 1 for parcels that edits made, and &lt;i&gt;came_from&lt;/i&gt; has the numbers of those that they were. &lt;b&gt;Answers&lt;/b&gt; has a row for each edit.&lt;/p&gt;</translation>
    </message>
    <message>
        <source>&lt;p&gt;Areas, gaps and overlaps are exact: they come from the formally verified program parcel_tool, in whole millimetres. What is measured in floating point is marked so in a column that ends in _how.&lt;/p&gt;</source>
        <translation>&lt;p&gt;Areas, gaps and overlaps are exact: they come from the formally verified program parcel_tool, in whole millimetres. What is measured in floating point is marked so in a column that ends in _how.&lt;/p&gt;</translation>
    </message>
    <message>
        <source>&lt;p&gt;Asks a desk of a running session (&lt;i&gt;parcel_tool session .. --desk NAME&lt;/i&gt;, where NAME.in and NAME.out are its pipes) for every parcel of the layer. &lt;b&gt;Compared parcels&lt;/b&gt; has each with its &lt;i&gt;state&lt;/i&gt;: &lt;i&gt;same&lt;/i&gt;, &lt;i&gt;moved&lt;/i&gt; (its border differs) or &lt;i&gt;retired&lt;/i&gt; (an edit took it out), and for those as &lt;i&gt;new&lt;/i&gt; the session's parcels that are there now, with their ids.&lt;/p&gt;&lt;p&gt;The layer has to be the one with which the session began; name the folder that &lt;b&gt;Prepare&lt;/b&gt; wrote for it, if you have it. Areas are compared exactly, in whole millimetres. Nobody else may sit at that desk meanwhile; nothing is edited.&lt;/p&gt;</source>
        <translation>&lt;p&gt;Asks a desk of a running session (&lt;i&gt;parcel_tool session .. --desk NAME&lt;/i&gt;, where NAME.in and NAME.out are its pipes) for every parcel of the layer. &lt;b&gt;Compared parcels&lt;/b&gt; has each with its &lt;i&gt;state&lt;/i&gt;: &lt;i&gt;same&lt;/i&gt;, &lt;i&gt;moved&lt;/i&gt; (its border differs) or &lt;i&gt;retired&lt;/i&gt; (an edit took it out), and for those as &lt;i&gt;new&lt;/i&gt; the session's parcels that are there now, with their ids.&lt;/p&gt;&lt;p&gt;The layer has to be the one with which the session began; name the folder that &lt;b&gt;Prepare&lt;/b&gt; wrote for it, if you have it. Areas are compared exactly, in whole millimetres. Nobody else may sit at that desk meanwhile; nothing is edited.&lt;/p&gt;</translation>
    </message>
    <message>
        <source>&lt;p&gt;Checks a layer of any size. One run of the program takes 65,536 parcels; a larger layer is cut into districts along the parcels' own borders, each is judged, and so are the districts in the city's outline. All parcels tile the city if all of these tile: that is proved.&lt;/p&gt;&lt;p&gt;If a district has no verdict, the verdict is &lt;b&gt;open&lt;/b&gt;. Outputs are those of &lt;b&gt;Check parcels&lt;/b&gt;.&lt;/p&gt;</source>
        <translation>&lt;p&gt;Checks a layer of any size. One run of the program takes 65,536 parcels; a larger layer is cut into districts along the parcels' own borders, each is judged, and so are the districts in the city's outline. All parcels tile the city if all of these tile: that is proved.&lt;/p&gt;&lt;p&gt;If a district has no verdict, the verdict is &lt;b&gt;open&lt;/b&gt;. Outputs are those of &lt;b&gt;Check parcels&lt;/b&gt;.&lt;/p&gt;</translation>
    </message>
    <message>
        <source>&lt;p&gt;Checks that parcels tile their city: no gap, no overlap.&lt;/p&gt;&lt;p&gt;The output &lt;b&gt;Faults&lt;/b&gt; has each gap, overlap, open gap (open to the outside) and sliver as a polygon, with the numbers of the parcels there and its area. How many there are of each kind are outputs, which models can use.&lt;/p&gt;&lt;p&gt;Selected features alone are checked if you ask for that. The layer is not changed.&lt;/p&gt;</source>
        <translation>&lt;p&gt;Checks that parcels tile their city: no gap, no overlap.&lt;/p&gt;&lt;p&gt;The output &lt;b&gt;Faults&lt;/b&gt; has each gap, overlap, open gap (open to the outside) and sliver as a polygon, with the numbers of the parcels there and its area. How many there are of each kind are outputs, which models can use.&lt;/p&gt;&lt;p&gt;Selected features alone are checked if you ask for that. The layer is not changed.&lt;/p&gt;</translation>
    </message>
    <message>
        <source>&lt;p&gt;For each point the parcel that it is &lt;i&gt;inside&lt;/i&gt;, or all parcels on whose border it lies (&lt;i&gt;edge&lt;/i&gt;); else it is &lt;i&gt;outside&lt;/i&gt;. The parcels have to tile their city.&lt;/p&gt;&lt;p&gt;A point is looked for at the nearest whole millimetre, &lt;i&gt;moved_mm&lt;/i&gt; away (measured).&lt;/p&gt;</source>
        <translation>&lt;p&gt;For each point the parcel that it is &lt;i&gt;inside&lt;/i&gt;, or all parcels on whose border it lies (&lt;i&gt;edge&lt;/i&gt;); else it is &lt;i&gt;outside&lt;/i&gt;. The parcels have to tile their city.&lt;/p&gt;&lt;p&gt;A point is looked for at the nearest whole millimetre, &lt;i&gt;moved_mm&lt;/i&gt; away (measured).&lt;/p&gt;</translation>
    </message>
    <message>
        <source>&lt;p&gt;The parcels on the grid of whole millimetres, each with all corners of its neighbours that lie on its borders. No gap and no overlap is mended.&lt;/p&gt;&lt;p&gt;&lt;b&gt;Prepared parcels&lt;/b&gt; have the attributes of the layer, and in &lt;i&gt;records&lt;/i&gt; the records of the program, which clerks' edits name. &lt;b&gt;Changed corners&lt;/b&gt; are those that were moved, put in or made to touch, with the distance in millimetres (measured).&lt;/p&gt;&lt;p&gt;A &lt;b&gt;folder&lt;/b&gt;, if you name one, is what &lt;i&gt;parcel_tool&lt;/i&gt; and its sessions read.&lt;/p&gt;</source>
        <translation>&lt;p&gt;The parcels on the grid of whole millimetres, each with all corners of its neighbours that lie on its borders. No gap and no overlap is mended.&lt;/p&gt;&lt;p&gt;&lt;b&gt;Prepared parcels&lt;/b&gt; have the attributes of the layer, and in &lt;i&gt;records&lt;/i&gt; the records of the program, which clerks' edits name. &lt;b&gt;Changed corners&lt;/b&gt; are those that were moved, put in or made to touch, with the distance in millimetres (measured).&lt;/p&gt;&lt;p&gt;A &lt;b&gt;folder&lt;/b&gt;, if you name one, is what &lt;i&gt;parcel_tool&lt;/i&gt; and its sessions read.&lt;/p&gt;</translation>
    </message>
    <message>
        <source>&lt;p&gt;Which parcels lie in which zones, also where the layers do not tile.&lt;/p&gt;&lt;p&gt;&lt;b&gt;Split parcels&lt;/b&gt; are those in two zones or more, with the zones' names. &lt;b&gt;Parts&lt;/b&gt; are what each has in each zone, with its area. The &lt;b&gt;joined table&lt;/b&gt; has a row for each parcel and zone that overlap, with the attributes of both. &lt;b&gt;Pairs&lt;/b&gt; are the table without attributes. &lt;b&gt;Faults&lt;/b&gt; are those of parcels and zones.&lt;/p&gt;&lt;p&gt;That a parcel and a zone overlap is exact; those that only touch are not told. Where both layers tile, areas are proved: twice the area in mm², &lt;i&gt;area2_mm2&lt;/i&gt;, is at most 1 off, and a parcel's areas sum to its own. Else they are measured (&lt;i&gt;area_how&lt;/i&gt;). Where a parcel overlaps no zone, or lies beyond the city, the table has a zone that is measured at a point inside it, or none (&lt;i&gt;zone_how&lt;/i&gt;).&lt;/p&gt;</source>
        <translation>&lt;p&gt;Which parcels lie in which zones, also where the layers do not tile.&lt;/p&gt;&lt;p&gt;&lt;b&gt;Split parcels&lt;/b&gt; are those in two zones or more, with the zones' names. &lt;b&gt;Parts&lt;/b&gt; are what each has in each zone, with its area. The &lt;b&gt;joined table&lt;/b&gt; has a row for each parcel and zone that overlap, with the attributes of both. &lt;b&gt;Pairs&lt;/b&gt; are the table without attributes. &lt;b&gt;Faults&lt;/b&gt; are those of parcels and zones.&lt;/p&gt;&lt;p&gt;That a parcel and a zone overlap is exact; those that only touch are not told. Where both layers tile, areas are proved: twice the area in mm², &lt;i&gt;area2_mm2&lt;/i&gt;, is at most 1 off, and a parcel's areas sum to its own. Else they are measured (&lt;i&gt;area_how&lt;/i&gt;). Where a parcel overlaps no zone, or lies beyond the city, the table has a zone that is measured at a point inside it, or none (&lt;i&gt;zone_how&lt;/i&gt;).&lt;/p&gt;</translation>
    </message>
    <message>
        <source>A border bends at this corner, or a third one ends there.</source>
        <translation>A border bends at this corner, or a third one ends there.</translation>
    </message>
    <message>
        <source>A border moves by {far} at most.</source>
        <translation>A border moves by {far} at most.</translation>
    </message>
    <message>
        <source>A corner this near to a border touches it (mm)</source>
        <translation>A corner this near to a border touches it (mm)</translation>
    </message>
    <message>
        <source>A parcel of this edit was changed meanwhile: look at the map, and draw it again.</source>
        <translation>A parcel of this edit was changed meanwhile: look at the map, and draw it again.</translation>
    </message>
    <message>
        <source>A part would have no area, or the path leaves the parcel.</source>
        <translation>A part would have no area, or the path leaves the parcel.</translation>
    </message>
    <message>
        <source>A register of faults needs a layer in a file: save this one as a GeoPackage first.</source>
        <translation>A register of faults needs a layer in a file: save this one as a GeoPackage first.</translation>
    </message>
    <message>
        <source>Accept as an exception</source>
        <translation>Accept as an exception</translation>
    </message>
    <message>
        <source>Accepted, with your reason, in the register of faults.</source>
        <translation>Accepted, with your reason, in the register of faults.</translation>
    </message>
    <message>
        <source>Add to the list</source>
        <translation>Add to the list</translation>
    </message>
    <message>
        <source>Address</source>
        <translation>Address</translation>
    </message>
    <message>
        <source>After a check, each parcel that you change is checked at once, with its neighbours alone.</source>
        <translation>After a check, each parcel that you change is checked at once, with its neighbours alone.</translation>
    </message>
    <message>
        <source>All kinds</source>
        <translation>All kinds</translation>
    </message>
    <message>
        <source>An output can't be written: {reason}</source>
        <translation>An output can't be written: {reason}</translation>
    </message>
    <message>
        <source>Answers</source>
        <translation>Answers</translation>
    </message>
    <message>
        <source>Apply</source>
        <translation>Apply</translation>
    </message>
    <message>
        <source>Apply edits</source>
        <translation>Apply edits</translation>
    </message>
    <message>
        <source>Apply to all of this kind</source>
        <translation>Apply to all of this kind</translation>
    </message>
    <message>
        <source>Area (m²)</source>
        <translation>Area (m²)</translation>
    </message>
    <message>
        <source>Beyond the city</source>
        <translation>Beyond the city</translation>
    </message>
    <message>
        <source>By default 1 mm.</source>
        <translation>By default 1 mm.</translation>
    </message>
    <message>
        <source>By default what the layer's grid needs.</source>
        <translation>By default what the layer's grid needs.</translation>
    </message>
    <message>
        <source>Cancel</source>
        <translation>Cancel</translation>
    </message>
    <message>
        <source>Cancelled.</source>
        <translation>Cancelled.</translation>
    </message>
    <message>
        <source>Cancelled: the check has ended, and nothing was written.</source>
        <translation>Cancelled: the check has ended, and nothing was written.</translation>
    </message>
    <message>
        <source>Changed corners</source>
        <translation>Changed corners</translation>
    </message>
    <message>
        <source>Check a large layer by districts</source>
        <translation>Check a large layer by districts</translation>
    </message>
    <message>
        <source>Check again to see what is left.</source>
        <translation>Check again to see what is left.</translation>
    </message>
    <message>
        <source>Check parcels</source>
        <translation>Check parcels</translation>
    </message>
    <message>
        <source>Check the edited layer</source>
        <translation>Check the edited layer</translation>
    </message>
    <message>
        <source>Check while I edit</source>
        <translation>Check while I edit</translation>
    </message>
    <message>
        <source>Checked while you edit: {counts}.</source>
        <translation>Checked while you edit: {counts}.</translation>
    </message>
    <message>
        <source>Checking {layer} ..</source>
        <translation>Checking {layer} ..</translation>
    </message>
    <message>
        <source>Checks the layer as it is in the window; edits need not be saved.</source>
        <translation>Checks the layer as it is in the window; edits need not be saved.</translation>
    </message>
    <message>
        <source>Choose a layer, and check it.</source>
        <translation>Choose a layer, and check it.</translation>
    </message>
    <message>
        <source>City</source>
        <translation>City</translation>
    </message>
    <message>
        <source>City's outline</source>
        <translation>City's outline</translation>
    </message>
    <message>
        <source>Clerk's file of edits</source>
        <translation>Clerk's file of edits</translation>
    </message>
    <message>
        <source>Click a border.</source>
        <translation>Click a border.</translation>
    </message>
    <message>
        <source>Click a corner.</source>
        <translation>Click a corner.</translation>
    </message>
    <message>
        <source>Click the neighbour.</source>
        <translation>Click the neighbour.</translation>
    </message>
    <message>
        <source>Click the parcel, and then its border where the new corner comes.</source>
        <translation>Click the parcel, and then its border where the new corner comes.</translation>
    </message>
    <message>
        <source>Click the parcel, and then the corner that goes, where the borders go straight on.</source>
        <translation>Click the parcel, and then the corner that goes, where the borders go straight on.</translation>
    </message>
    <message>
        <source>Click the parcel, and then the neighbour that becomes one with it.</source>
        <translation>Click the parcel, and then the neighbour that becomes one with it.</translation>
    </message>
    <message>
        <source>Click the parcel, the neighbour, and then the corners of the new border between its two ends.</source>
        <translation>Click the parcel, the neighbour, and then the corners of the new border between its two ends.</translation>
    </message>
    <message>
        <source>Click the parcel, then the corner where the cut begins, its corners, and the corner where it ends.</source>
        <translation>Click the parcel, then the corner where the cut begins, its corners, and the corner where it ends.</translation>
    </message>
    <message>
        <source>Compare with a register's session</source>
        <translation>Compare with a register's session</translation>
    </message>
    <message>
        <source>Compared parcels</source>
        <translation>Compared parcels</translation>
    </message>
    <message>
        <source>Connect</source>
        <translation>Connect</translation>
    </message>
    <message>
        <source>Corners disagree here, so nothing was changed in {layer}: parcels {numbers}. Repair shows what can be done.</source>
        <translation>Corners disagree here, so nothing was changed in {layer}: parcels {numbers}. Repair shows what can be done.</translation>
    </message>
    <message>
        <source>Corners disagree here: Repair shows what can be done. Inserting changes nothing.</source>
        <translation>Corners disagree here: Repair shows what can be done. Inserting changes nothing.</translation>
    </message>
    <message>
        <source>Desk: the path of its pipes, without .in or .out</source>
        <translation>Desk: the path of its pipes, without .in or .out</translation>
    </message>
    <message>
        <source>Disconnect</source>
        <translation>Disconnect</translation>
    </message>
    <message>
        <source>Do not save new faults</source>
        <translation>Do not save new faults</translation>
    </message>
    <message>
        <source>Drop</source>
        <translation>Drop</translation>
    </message>
    <message>
        <source>Edited parcels</source>
        <translation>Edited parcels</translation>
    </message>
    <message>
        <source>Ends the check.</source>
        <translation>Ends the check.</translation>
    </message>
    <message>
        <source>Export the register ..</source>
        <translation>Export the register ..</translation>
    </message>
    <message>
        <source>Faults</source>
        <translation>Faults</translation>
    </message>
    <message>
        <source>Faults of parcels</source>
        <translation>Faults of parcels</translation>
    </message>
    <message>
        <source>Field of the parcels' numbers</source>
        <translation>Field of the parcels' numbers</translation>
    </message>
    <message>
        <source>Field of the zones' names</source>
        <translation>Field of the zones' names</translation>
    </message>
    <message>
        <source>Folder for the program</source>
        <translation>Folder for the program</translation>
    </message>
    <message>
        <source>For the program's verdict click Check.</source>
        <translation>For the program's verdict click Check.</translation>
    </message>
    <message>
        <source>Gandovel: check of {layer}</source>
        <translation>Gandovel: check of {layer}</translation>
    </message>
    <message>
        <source>Gandovel: exact check of parcel layers</source>
        <translation>Gandovel: exact check of parcel layers</translation>
    </message>
    <message>
        <source>Gandovel: posting edits</source>
        <translation>Gandovel: posting edits</translation>
    </message>
    <message>
        <source>Gandovel: reading the register</source>
        <translation>Gandovel: reading the register</translation>
    </message>
    <message>
        <source>Gap</source>
        <translation>Gap</translation>
    </message>
    <message>
        <source>Give it to parcel {parcel}, whose border there is {length} long</source>
        <translation>Give it to parcel {parcel}, whose border there is {length} long</translation>
    </message>
    <message>
        <source>Go on without invalid features</source>
        <translation>Go on without invalid features</translation>
    </message>
    <message>
        <source>Greatest width of an open gap (m)</source>
        <translation>Greatest width of an open gap (m)</translation>
    </message>
    <message>
        <source>Held: the layer has new faults. Mend them, accept them, or take edits back.</source>
        <translation>Held: the layer has new faults. Mend them, accept them, or take edits back.</translation>
    </message>
    <message>
        <source>Help</source>
        <translation>Help</translation>
    </message>
    <message>
        <source>Insert a corner</source>
        <translation>Insert a corner</translation>
    </message>
    <message>
        <source>Insert missing corners</source>
        <translation>Insert missing corners</translation>
    </message>
    <message>
        <source>Insert puts 1 corner into parcel {parcel} of {layer}.</source>
        <translation>Insert puts 1 corner into parcel {parcel} of {layer}.</translation>
    </message>
    <message>
        <source>Insert puts {count} corners into parcel {parcel} of {layer}.</source>
        <translation>Insert puts {count} corners into parcel {parcel} of {layer}.</translation>
    </message>
    <message>
        <source>Insert the missing corner</source>
        <translation>Insert the missing corner</translation>
    </message>
    <message>
        <source>It can be posted.</source>
        <translation>It can be posted.</translation>
    </message>
    <message>
        <source>Joined table</source>
        <translation>Joined table</translation>
    </message>
    <message>
        <source>Keep a register of faults</source>
        <translation>Keep a register of faults</translation>
    </message>
    <message>
        <source>Keep as a draft</source>
        <translation>Keep as a draft</translation>
    </message>
    <message>
        <source>Kept as a draft. It would bring {areas}.</source>
        <translation>Kept as a draft. It would bring {areas}.</translation>
    </message>
    <message>
        <source>Kept until QGIS is closed. Without TLS it goes in clear text.</source>
        <translation>Kept until QGIS is closed. Without TLS it goes in clear text.</translation>
    </message>
    <message>
        <source>Kind</source>
        <translation>Kind</translation>
    </message>
    <message>
        <source>Last: {kind} by {who}.</source>
        <translation>Last: {kind} by {who}.</translation>
    </message>
    <message>
        <source>Live checking stopped ({reason}): check again.</source>
        <translation>Live checking stopped ({reason}): check again.</translation>
    </message>
    <message>
        <source>Live checking stopped here ({reason}): check again.</source>
        <translation>Live checking stopped here ({reason}): check again.</translation>
    </message>
    <message>
        <source>Live register</source>
        <translation>Live register</translation>
    </message>
    <message>
        <source>Live: refused: {text}</source>
        <translation>Live: refused: {text}</translation>
    </message>
    <message>
        <source>Locate points</source>
        <translation>Locate points</translation>
    </message>
    <message>
        <source>Located points</source>
        <translation>Located points</translation>
    </message>
    <message>
        <source>Longest wait for an answer (s)</source>
        <translation>Longest wait for an answer (s)</translation>
    </message>
    <message>
        <source>Made: entries {numbers}.</source>
        <translation>Made: entries {numbers}.</translation>
    </message>
    <message>
        <source>Mend all faults of one kind</source>
        <translation>Mend all faults of one kind</translation>
    </message>
    <message>
        <source>Merge</source>
        <translation>Merge</translation>
    </message>
    <message>
        <source>Most rings of a district</source>
        <translation>Most rings of a district</translation>
    </message>
    <message>
        <source>Move a border</source>
        <translation>Move a border</translation>
    </message>
    <message>
        <source>Move the odd corner of parcel {parcel} to where the others agree</source>
        <translation>Move the odd corner of parcel {parcel} to where the others agree</translation>
    </message>
    <message>
        <source>Narrower notches and channels that are open to the outside are open gaps. By default 1 m.</source>
        <translation>Narrower notches and channels that are open to the outside are open gaps. By default 1 m.</translation>
    </message>
    <message>
        <source>Next fault</source>
        <translation>Next fault</translation>
    </message>
    <message>
        <source>No corner is missing here: each parcel of {layer} has corners of its own. Move them with the vertex tool.</source>
        <translation>No corner is missing here: each parcel of {layer} has corners of its own. Move them with the vertex tool.</translation>
    </message>
    <message>
        <source>No fault is chosen.</source>
        <translation>No fault is chosen.</translation>
    </message>
    <message>
        <source>No parcel has this corner.</source>
        <translation>No parcel has this corner.</translation>
    </message>
    <message>
        <source>No two parcels may have the same number. Without a field, rows are numbered from 1.</source>
        <translation>No two parcels may have the same number. Without a field, rows are numbered from 1.</translation>
    </message>
    <message>
        <source>Not connected.</source>
        <translation>Not connected.</translation>
    </message>
    <message>
        <source>Not connected: its layer was taken from the project.</source>
        <translation>Not connected: its layer was taken from the project.</translation>
    </message>
    <message>
        <source>Notes each verdict's faults in a table beside the layer: when they were seen, and what was decided.</source>
        <translation>Notes each verdict's faults in a table beside the layer: when they were seen, and what was decided.</translation>
    </message>
    <message>
        <source>Number</source>
        <translation>Number</translation>
    </message>
    <message>
        <source>Number of changed corners</source>
        <translation>Number of changed corners</translation>
    </message>
    <message>
        <source>Number of edits made</source>
        <translation>Number of edits made</translation>
    </message>
    <message>
        <source>Number of edits refused</source>
        <translation>Number of edits refused</translation>
    </message>
    <message>
        <source>Number of edits that the session has made</source>
        <translation>Number of edits that the session has made</translation>
    </message>
    <message>
        <source>Number of features that were skipped</source>
        <translation>Number of features that were skipped</translation>
    </message>
    <message>
        <source>Number of gaps</source>
        <translation>Number of gaps</translation>
    </message>
    <message>
        <source>Number of gaps that are open to the outside</source>
        <translation>Number of gaps that are open to the outside</translation>
    </message>
    <message>
        <source>Number of overlaps</source>
        <translation>Number of overlaps</translation>
    </message>
    <message>
        <source>Number of parcels and zones that overlap</source>
        <translation>Number of parcels and zones that overlap</translation>
    </message>
    <message>
        <source>Number of parcels that are new in the session</source>
        <translation>Number of parcels that are new in the session</translation>
    </message>
    <message>
        <source>Number of parcels that are the same</source>
        <translation>Number of parcels that are the same</translation>
    </message>
    <message>
        <source>Number of parcels that edits took out</source>
        <translation>Number of parcels that edits took out</translation>
    </message>
    <message>
        <source>Number of parcels whose border differs</source>
        <translation>Number of parcels whose border differs</translation>
    </message>
    <message>
        <source>Number of parts beyond the city</source>
        <translation>Number of parts beyond the city</translation>
    </message>
    <message>
        <source>Number of parts of the city</source>
        <translation>Number of parts of the city</translation>
    </message>
    <message>
        <source>Number of points inside a parcel</source>
        <translation>Number of points inside a parcel</translation>
    </message>
    <message>
        <source>Number of points on a border</source>
        <translation>Number of points on a border</translation>
    </message>
    <message>
        <source>Number of points outside</source>
        <translation>Number of points outside</translation>
    </message>
    <message>
        <source>Number of slivers</source>
        <translation>Number of slivers</translation>
    </message>
    <message>
        <source>Number of split parcels</source>
        <translation>Number of split parcels</translation>
    </message>
    <message>
        <source>Open gap</source>
        <translation>Open gap</translation>
    </message>
    <message>
        <source>Opens the page of this plugin.</source>
        <translation>Opens the page of this plugin.</translation>
    </message>
    <message>
        <source>Out of date: another number or unit was chosen after this verdict. Check {layer} again.</source>
        <translation>Out of date: another number or unit was chosen after this verdict. Check {layer} again.</translation>
    </message>
    <message>
        <source>Out of date: the city is another one now, or was changed. Check {layer} again.</source>
        <translation>Out of date: the city is another one now, or was changed. Check {layer} again.</translation>
    </message>
    <message>
        <source>Out of date: {layer} was changed after this verdict. Check it again.</source>
        <translation>Out of date: {layer} was changed after this verdict. Check it again.</translation>
    </message>
    <message>
        <source>Overlap</source>
        <translation>Overlap</translation>
    </message>
    <message>
        <source>Overlay zones</source>
        <translation>Overlay zones</translation>
    </message>
    <message>
        <source>Pairs of parcel and zone</source>
        <translation>Pairs of parcel and zone</translation>
    </message>
    <message>
        <source>Parcel {parcel} keeps it</source>
        <translation>Parcel {parcel} keeps it</translation>
    </message>
    <message>
        <source>Parcel {parcel}: {before} m², then {after} m²</source>
        <translation>Parcel {parcel}: {before} m², then {after} m²</translation>
    </message>
    <message>
        <source>Parcels</source>
        <translation>Parcels</translation>
    </message>
    <message>
        <source>Parcels of {layer} at this fault are no longer there: check again.</source>
        <translation>Parcels of {layer} at this fault are no longer there: check again.</translation>
    </message>
    <message>
        <source>Part of the city, from 1</source>
        <translation>Part of the city, from 1</translation>
    </message>
    <message>
        <source>Parts of less are marked as slivers (m²)</source>
        <translation>Parts of less are marked as slivers (m²)</translation>
    </message>
    <message>
        <source>Parts of split parcels</source>
        <translation>Parts of split parcels</translation>
    </message>
    <message>
        <source>Parts that do not touch have records of their own.</source>
        <translation>Parts that do not touch have records of their own.</translation>
    </message>
    <message>
        <source>Points</source>
        <translation>Points</translation>
    </message>
    <message>
        <source>Post</source>
        <translation>Post</translation>
    </message>
    <message>
        <source>Prepare</source>
        <translation>Prepare</translation>
    </message>
    <message>
        <source>Prepared parcels</source>
        <translation>Prepared parcels</translation>
    </message>
    <message>
        <source>Program parcel_tool (empty: the package's own, or the one on PATH)</source>
        <translation>Program parcel_tool (empty: the package's own, or the one on PATH)</translation>
    </message>
    <message>
        <source>Put {corners} into parcel {parcel}</source>
        <translation>Put {corners} into parcel {parcel}</translation>
    </message>
    <message>
        <source>Puts the corner that is missing at the chosen fault into the neighbour; undo takes it back.</source>
        <translation>Puts the corner that is missing at the chosen fault into the neighbour; undo takes it back.</translation>
    </message>
    <message>
        <source>Python that has the package gandovel (empty: the first that has it)</source>
        <translation>Python that has the package gandovel (empty: the first that has it)</translation>
    </message>
    <message>
        <source>Reading {address} ..</source>
        <translation>Reading {address} ..</translation>
    </message>
    <message>
        <source>Refuse to move a corner farther than (mm)</source>
        <translation>Refuse to move a corner farther than (mm)</translation>
    </message>
    <message>
        <source>Register {address}</source>
        <translation>Register {address}</translation>
    </message>
    <message>
        <source>Remove a corner</source>
        <translation>Remove a corner</translation>
    </message>
    <message>
        <source>Repair ..</source>
        <translation>Repair ..</translation>
    </message>
    <message>
        <source>Repair faults</source>
        <translation>Repair faults</translation>
    </message>
    <message>
        <source>Rows of the session's parcels (rows.csv of its folder)</source>
        <translation>Rows of the session's parcels (rows.csv of its folder)</translation>
    </message>
    <message>
        <source>Saving is held while the layer has faults that the last check had not.</source>
        <translation>Saving is held while the layer has faults that the last check had not.</translation>
    </message>
    <message>
        <source>Say in Check parcels how near to a border a corner touches it (advanced). These fit (mm): {distances}.</source>
        <translation>Say in Check parcels how near to a border a corner touches it (advanced). These fit (mm): {distances}.</translation>
    </message>
    <message>
        <source>Say why: an exception has a reason.</source>
        <translation>Say why: an exception has a reason.</translation>
    </message>
    <message>
        <source>Several rows may have the same name. Without a field, rows are numbered from 1.</source>
        <translation>Several rows may have the same name. Without a field, rows are numbered from 1.</translation>
    </message>
    <message>
        <source>Shows what can be done about the chosen fault, with areas before and after.</source>
        <translation>Shows what can be done about the chosen fault, with areas before and after.</translation>
    </message>
    <message>
        <source>Sliver</source>
        <translation>Sliver</translation>
    </message>
    <message>
        <source>Split</source>
        <translation>Split</translation>
    </message>
    <message>
        <source>Split parcels</source>
        <translation>Split parcels</translation>
    </message>
    <message>
        <source>Start editing {layer} first.</source>
        <translation>Start editing {layer} first.</translation>
    </message>
    <message>
        <source>Start editing {layer} first: the corner is an edit that undo takes back.</source>
        <translation>Start editing {layer} first: the corner is an edit that undo takes back.</translation>
    </message>
    <message>
        <source>State</source>
        <translation>State</translation>
    </message>
    <message>
        <source>Take back</source>
        <translation>Take back</translation>
    </message>
    <message>
        <source>Take from the list</source>
        <translation>Take from the list</translation>
    </message>
    <message>
        <source>The Python package gandovel was not found, or GeoPandas and tqdm, which it needs: install it from a release into ~/gandovel, as its README says, or name the Python that has it in {where}.</source>
        <translation>The Python package gandovel was not found, or GeoPandas and tqdm, which it needs: install it from a release into ~/gandovel, as its README says, or name the Python that has it in {where}.</translation>
    </message>
    <message>
        <source>The address {address} is no register of gandovel serve ({reason}).</source>
        <translation>The address {address} is no register of gandovel serve ({reason}).</translation>
    </message>
    <message>
        <source>The border was changed by another edit: click it again.</source>
        <translation>The border was changed by another edit: click it again.</translation>
    </message>
    <message>
        <source>The check failed: {reason}</source>
        <translation>The check failed: {reason}</translation>
    </message>
    <message>
        <source>The city has {count} parts that do not touch one another.</source>
        <translation>The city has {count} parts that do not touch one another.</translation>
    </message>
    <message>
        <source>The city's outline is made of the parcels; give a layer of it to find gaps along it.</source>
        <translation>The city's outline is made of the parcels; give a layer of it to find gaps along it.</translation>
    </message>
    <message>
        <source>The fault before ({key})</source>
        <translation>The fault before ({key})</translation>
    </message>
    <message>
        <source>The largest is at ({x}, {y}), at the parcels {numbers}.</source>
        <translation>The largest is at ({x}, {y}), at the parcels {numbers}.</translation>
    </message>
    <message>
        <source>The layer that was checked is gone.</source>
        <translation>The layer that was checked is gone.</translation>
    </message>
    <message>
        <source>The layer {name} can't be written for the check: {reason}</source>
        <translation>The layer {name} can't be written for the check: {reason}</translation>
    </message>
    <message>
        <source>The layer {name} has no feature: choose another, or do not ask for the selected ones alone.</source>
        <translation>The layer {name} has no feature: choose another, or do not ask for the selected ones alone.</translation>
    </message>
    <message>
        <source>The layer {name} has no field {field}: choose one of {names}.</source>
        <translation>The layer {name} has no field {field}: choose one of {names}.</translation>
    </message>
    <message>
        <source>The layer {name} has no projection: give it one, or name the unit of its coordinates.</source>
        <translation>The layer {name} has no projection: give it one, or name the unit of its coordinates.</translation>
    </message>
    <message>
        <source>The neighbour is gone: another edit took it out.</source>
        <translation>The neighbour is gone: another edit took it out.</translation>
    </message>
    <message>
        <source>The new border has to begin and end where the old one does.</source>
        <translation>The new border has to begin and end where the old one does.</translation>
    </message>
    <message>
        <source>The next fault ({key})</source>
        <translation>The next fault ({key})</translation>
    </message>
    <message>
        <source>The package gandovel wrote no layer {name}: install the version that fits this plugin.</source>
        <translation>The package gandovel wrote no layer {name}: install the version that fits this plugin.</translation>
    </message>
    <message>
        <source>The parcel is gone: another edit took it out.</source>
        <translation>The parcel is gone: another edit took it out.</translation>
    </message>
    <message>
        <source>The parcel would touch itself.</source>
        <translation>The parcel would touch itself.</translation>
    </message>
    <message>
        <source>The parcels</source>
        <translation>The parcels</translation>
    </message>
    <message>
        <source>The parcels do not tile the city: {counts}.</source>
        <translation>The parcels do not tile the city: {counts}.</translation>
    </message>
    <message>
        <source>The parcels here were changed: check again.</source>
        <translation>The parcels here were changed: check again.</translation>
    </message>
    <message>
        <source>The parcels tile the city: {counts}.</source>
        <translation>The parcels tile the city: {counts}.</translation>
    </message>
    <message>
        <source>The path crosses itself, touches the border, or leaves the parcel.</source>
        <translation>The path crosses itself, touches the border, or leaves the parcel.</translation>
    </message>
    <message>
        <source>The path does not begin in a corner of the parcel. Put a corner in first.</source>
        <translation>The path does not begin in a corner of the parcel. Put a corner in first.</translation>
    </message>
    <message>
        <source>The path does not end in a corner of the parcel. Put a corner in first.</source>
        <translation>The path does not end in a corner of the parcel. Put a corner in first.</translation>
    </message>
    <message>
        <source>The path ends where it begins.</source>
        <translation>The path ends where it begins.</translation>
    </message>
    <message>
        <source>The path needs a corner to begin in, and another to end in.</source>
        <translation>The path needs a corner to begin in, and another to end in.</translation>
    </message>
    <message>
        <source>The program parcel_tool was not found: install it from a release, or name it in {where}. The plugin has none of its own for {platform}: make build makes one from the sources.</source>
        <translation>The program parcel_tool was not found: install it from a release, or name it in {where}. The plugin has none of its own for {platform}: make build makes one from the sources.</translation>
    </message>
    <message>
        <source>The register asks for a token: {reason}</source>
        <translation>The register asks for a token: {reason}</translation>
    </message>
    <message>
        <source>The register at {address} does not answer: {reason}</source>
        <translation>The register at {address} does not answer: {reason}</translation>
    </message>
    <message>
        <source>The register does not answer; it is asked again.</source>
        <translation>The register does not answer; it is asked again.</translation>
    </message>
    <message>
        <source>The register keeps it, and another clerk approves it on the register's page.</source>
        <translation>The register keeps it, and another clerk approves it on the register's page.</translation>
    </message>
    <message>
        <source>The register of faults in {path} can't be written ({reason}): see whether the file may be written.</source>
        <translation>The register of faults in {path} can't be written ({reason}): see whether the file may be written.</translation>
    </message>
    <message>
        <source>The register takes one edit at a time: these are posted one after the other. Where one is refused, those before it stay made, and those after it are not sent.</source>
        <translation>The register takes one edit at a time: these are posted one after the other. Where one is refused, those before it stay made, and those after it are not sent.</translation>
    </message>
    <message>
        <source>The two parcels have no border in common.</source>
        <translation>The two parcels have no border in common.</translation>
    </message>
    <message>
        <source>The verdict is open: {counts}.</source>
        <translation>The verdict is open: {counts}.</translation>
    </message>
    <message>
        <source>The zones</source>
        <translation>The zones</translation>
    </message>
    <message>
        <source>The zones do not tile the city: {counts}.</source>
        <translation>The zones do not tile the city: {counts}.</translation>
    </message>
    <message>
        <source>Their common border is not one unbroken run.</source>
        <translation>Their common border is not one unbroken run.</translation>
    </message>
    <message>
        <source>There is no layer of polygons to check: add one to the project.</source>
        <translation>There is no layer of polygons to check: add one to the project.</translation>
    </message>
    <message>
        <source>There is no register: check a layer in a file first.</source>
        <translation>There is no register: check a layer in a file first.</translation>
    </message>
    <message>
        <source>There is nothing to propose here: move corners with the vertex tool.</source>
        <translation>There is nothing to propose here: move corners with the vertex tool.</translation>
    </message>
    <message>
        <source>They are told, and the verdict is of the others.</source>
        <translation>They are told, and the verdict is of the others.</translation>
    </message>
    <message>
        <source>This border has no whole millimetre between its ends: move the border instead.</source>
        <translation>This border has no whole millimetre between its ends: move the border instead.</translation>
    </message>
    <message>
        <source>This is of {layer}, not of the layer that is chosen above. Check that one.</source>
        <translation>This is of {layer}, not of the layer that is chosen above. Check that one.</translation>
    </message>
    <message>
        <source>Token</source>
        <translation>Token</translation>
    </message>
    <message>
        <source>Unit</source>
        <translation>Unit</translation>
    </message>
    <message>
        <source>Unit of layers without a projection</source>
        <translation>Unit of layers without a projection</translation>
    </message>
    <message>
        <source>Verdict: tiles, does not tile, or open</source>
        <translation>Verdict: tiles, does not tile, or open</translation>
    </message>
    <message>
        <source>What was done, in one line</source>
        <translation>What was done, in one line</translation>
    </message>
    <message>
        <source>Where it is given, a smaller layer is cut into districts, too.</source>
        <translation>Where it is given, a smaller layer is cut into districts, too.</translation>
    </message>
    <message>
        <source>Which faults there are can't be told from the layer's noise: {counts}.</source>
        <translation>Which faults there are can't be told from the layer's noise: {counts}.</translation>
    </message>
    <message>
        <source>Why it is no fault: a reason</source>
        <translation>Why it is no fault: a reason</translation>
    </message>
    <message>
        <source>Why: stands in the journal</source>
        <translation>Why: stands in the journal</translation>
    </message>
    <message>
        <source>Without it the outline is made of the parcels, and a gap along it is an open gap.</source>
        <translation>Without it the outline is made of the parcels, and a gap along it is an open gap.</translation>
    </message>
    <message>
        <source>Without it, records are as Prepare makes them of this layer.</source>
        <translation>Without it, records are as Prepare makes them of this layer.</translation>
    </message>
    <message>
        <source>Writes the register of faults of this layer as CSV.</source>
        <translation>Writes the register of faults of this layer as CSV.</translation>
    </message>
    <message>
        <source>Writing {name} ..</source>
        <translation>Writing {name} ..</translation>
    </message>
    <message>
        <source>Zones</source>
        <translation>Zones</translation>
    </message>
    <message>
        <source>accepted</source>
        <translation>accepted</translation>
    </message>
    <message>
        <source>another program</source>
        <translation>another program</translation>
    </message>
    <message>
        <source>is the disk full?</source>
        <translation>is the disk full?</translation>
    </message>
    <message>
        <source>new</source>
        <translation>new</translation>
    </message>
    <message>
        <source>no gaps</source>
        <translation>no gaps</translation>
    </message>
    <message>
        <source>no open gaps</source>
        <translation>no open gaps</translation>
    </message>
    <message>
        <source>no overlaps</source>
        <translation>no overlaps</translation>
    </message>
    <message>
        <source>no slivers</source>
        <translation>no slivers</translation>
    </message>
    <message>
        <source>open</source>
        <translation>open</translation>
    </message>
    <message>
        <source>there is no such folder, or it can't be written</source>
        <translation>there is no such folder, or it can't be written</translation>
    </message>
    <message>
        <source>twice its area: {area} mm² (exact)</source>
        <translation>twice its area: {area} mm² (exact)</translation>
    </message>
    <message>
        <source>writing the layer</source>
        <translation>writing the layer</translation>
    </message>
    <message>
        <source>{address} is no address: it begins with http:// or https://.</source>
        <translation>{address} is no address: it begins with http:// or https://.</translation>
    </message>
    <message>
        <source>{count} corners</source>
        <translation>{count} corners</translation>
    </message>
    <message>
        <source>{count} corners were made to touch, at most {largest} off; this closed {closed}.</source>
        <translation>{count} corners were made to touch, at most {largest} off; this closed {closed}.</translation>
    </message>
    <message>
        <source>{count} edits of the list were not sent.</source>
        <translation>{count} edits of the list were not sent.</translation>
    </message>
    <message>
        <source>{count} faults written to {path}.</source>
        <translation>{count} faults written to {path}.</translation>
    </message>
    <message>
        <source>{count} features were skipped: {numbers}</source>
        <translation>{count} features were skipped: {numbers}</translation>
    </message>
    <message>
        <source>{count} gaps</source>
        <translation>{count} gaps</translation>
    </message>
    <message>
        <source>{count} of them came with your edits.</source>
        <translation>{count} of them came with your edits.</translation>
    </message>
    <message>
        <source>{count} open gaps</source>
        <translation>{count} open gaps</translation>
    </message>
    <message>
        <source>{count} overlaps</source>
        <translation>{count} overlaps</translation>
    </message>
    <message>
        <source>{count} parts beyond the city</source>
        <translation>{count} parts beyond the city</translation>
    </message>
    <message>
        <source>{count} slivers</source>
        <translation>{count} slivers</translation>
    </message>
    <message>
        <source>{edit}: a parcel of it was changed meanwhile. Take it from the list, and draw it again.</source>
        <translation>{edit}: a parcel of it was changed meanwhile. Take it from the list, and draw it again.</translation>
    </message>
    <message>
        <source>{kind} of zones</source>
        <translation>{kind} of zones</translation>
    </message>
    <message>
        <source>{kind} of {area} m² in {layer}, at the parcels {numbers}</source>
        <translation>{kind} of {area} m² in {layer}, at the parcels {numbers}</translation>
    </message>
    <message>
        <source>{kind} was refused ({reason}).</source>
        <translation>{kind} was refused ({reason}).</translation>
    </message>
    <message>
        <source>{layer} do not tile the city.</source>
        <translation>{layer} do not tile the city.</translation>
    </message>
    <message>
        <source>{layer} do not tile the city: there is a fault at ({x}, {y}).</source>
        <translation>{layer} do not tile the city: there is a fault at ({x}, {y}).</translation>
    </message>
    <message>
        <source>{layer}: {corners} put into parcel {parcel}.</source>
        <translation>{layer}: {corners} put into parcel {parcel}.</translation>
    </message>
    <message>
        <source>{layer}: {count} of {all} mended by the same rule.</source>
        <translation>{layer}: {count} of {all} mended by the same rule.</translation>
    </message>
    <message>
        <source>{layer}: {text}</source>
        <translation>{layer}: {text}</translation>
    </message>
    <message>
        <source>{layer}: {title}.</source>
        <translation>{layer}: {title}.</translation>
    </message>
    <message>
        <source>{parcels} parcels after {entries} entries.</source>
        <translation>{parcels} parcels after {entries} entries.</translation>
    </message>
    <message>
        <source>{path} can't be written: {reason}</source>
        <translation>{path} can't be written: {reason}</translation>
    </message>
    <message>
        <source>{reason} Post again: an edit that was made is not made twice.</source>
        <translation>{reason} Post again: an edit that was made is not made twice.</translation>
    </message>
    <message>
        <source>{title} needs parcels that tile: mend the faults that Check parcels lists.</source>
        <translation>{title} needs parcels that tile: mend the faults that Check parcels lists.</translation>
    </message>
</context>
</TS>
