<?xml version="1.0" encoding="utf-8"?>
<!DOCTYPE TS>
<TS version="2.1" language="de">
<context>
    <name>Gandovel</name>
    <message>
        <source>(and {count} more)</source>
        <translation>(und {count} weitere)</translation>
    </message>
    <message>
        <source>(and {count} more: see the log)</source>
        <translation>(und {count} weitere: siehe Protokoll)</translation>
    </message>
    <message>
        <source>({path} is named now.)</source>
        <translation>({path} ist zurzeit angegeben.)</translation>
    </message>
    <message>
        <source>1 corner</source>
        <translation>1 Eckpunkt</translation>
    </message>
    <message>
        <source>1 edit of the list was not sent.</source>
        <translation>1 Änderung der Liste wurde nicht gesendet.</translation>
    </message>
    <message>
        <source>1 gap</source>
        <translation>1 Lücke</translation>
    </message>
    <message>
        <source>1 open gap</source>
        <translation>1 offene Lücke</translation>
    </message>
    <message>
        <source>1 overlap</source>
        <translation>1 Überlappung</translation>
    </message>
    <message>
        <source>1 part beyond the city</source>
        <translation>1 Teil jenseits der Stadt</translation>
    </message>
    <message>
        <source>1 sliver</source>
        <translation>1 Splitter</translation>
    </message>
    <message>
        <source>&lt;p&gt;Applies a clerk's file of edits (&lt;i&gt;split, merge, move, insert, straighten&lt;/i&gt;, one a line, in whole millimetres) to parcels that tile their city. No edit can leave a gap or an overlap: one that does not fit is refused with a reason, and changes nothing.&lt;/p&gt;&lt;p&gt;The edits name records; &lt;b&gt;Prepare&lt;/b&gt; shows which parcel has which. In the output, &lt;i&gt;edited&lt;/i&gt; is 1 for parcels that edits made, and &lt;i&gt;came_from&lt;/i&gt; has the numbers of those that they were. &lt;b&gt;Answers&lt;/b&gt; has a row for each edit.&lt;/p&gt;</source>
        <translation>&lt;p&gt;Wendet eine Datei mit Änderungen (&lt;i&gt;split, merge, move, insert, straighten&lt;/i&gt;, eine je Zeile, in ganzen Millimetern) auf Flurstücke an, die ihre Stadt lückenlos decken. Keine Änderung kann eine Lücke oder Überlappung hinterlassen: Eine, die nicht passt, wird mit Grund abgelehnt und ändert nichts.&lt;/p&gt;&lt;p&gt;Die Änderungen nennen Datensätze; &lt;b&gt;Vorbereiten&lt;/b&gt; zeigt, welches Flurstück welchen hat. In der Ausgabe ist &lt;i&gt;edited&lt;/i&gt; 1 bei Flurstücken, die Änderungen schufen, und &lt;i&gt;came_from&lt;/i&gt; hat die Nummern derer, die sie waren. &lt;b&gt;Antworten&lt;/b&gt; hat eine Zeile je Änderung.&lt;/p&gt;</translation>
    </message>
    <message>
        <source>&lt;p&gt;Areas, gaps and overlaps are exact: they come from the formally verified program parcel_tool, in whole millimetres. What is measured in floating point is marked so in a column that ends in _how.&lt;/p&gt;</source>
        <translation>&lt;p&gt;Flächen, Lücken und Überlappungen sind exakt: Sie kommen vom formal verifizierten Programm parcel_tool, in ganzen Millimetern. Was in Gleitkomma gemessen ist, ist in einer Spalte auf _how so bezeichnet.&lt;/p&gt;</translation>
    </message>
    <message>
        <source>&lt;p&gt;Asks a desk of a running session (&lt;i&gt;parcel_tool session .. --desk NAME&lt;/i&gt;, where NAME.in and NAME.out are its pipes) for every parcel of the layer. &lt;b&gt;Compared parcels&lt;/b&gt; has each with its &lt;i&gt;state&lt;/i&gt;: &lt;i&gt;same&lt;/i&gt;, &lt;i&gt;moved&lt;/i&gt; (its border differs) or &lt;i&gt;retired&lt;/i&gt; (an edit took it out), and for those as &lt;i&gt;new&lt;/i&gt; the session's parcels that are there now, with their ids.&lt;/p&gt;&lt;p&gt;The layer has to be the one with which the session began; name the folder that &lt;b&gt;Prepare&lt;/b&gt; wrote for it, if you have it. Areas are compared exactly, in whole millimetres. Nobody else may sit at that desk meanwhile; nothing is edited.&lt;/p&gt;</source>
        <translation>&lt;p&gt;Fragt einen Arbeitsplatz einer laufenden Sitzung (&lt;i&gt;parcel_tool session .. --desk NAME&lt;/i&gt;, wobei NAME.in und NAME.out seine Pipes sind) nach jedem Flurstück des Layers. &lt;b&gt;Verglichene Flurstücke&lt;/b&gt; hat jedes mit seinem &lt;i&gt;state&lt;/i&gt;: &lt;i&gt;same&lt;/i&gt;, &lt;i&gt;moved&lt;/i&gt; (andere Grenze) oder &lt;i&gt;retired&lt;/i&gt; (eine Änderung nahm es heraus), und als &lt;i&gt;new&lt;/i&gt; die Flurstücke, die es in der Sitzung jetzt gibt, mit ihren Nummern.&lt;/p&gt;&lt;p&gt;Der Layer muss der sein, mit dem die Sitzung begann; nennen Sie den Ordner, den &lt;b&gt;Vorbereiten&lt;/b&gt; für sie schrieb, wenn Sie ihn haben. Flächen werden exakt verglichen, in ganzen Millimetern. Niemand sonst darf währenddessen an dem Arbeitsplatz sitzen; nichts wird geändert.&lt;/p&gt;</translation>
    </message>
    <message>
        <source>&lt;p&gt;Checks a layer of any size. One run of the program takes 65,536 parcels; a larger layer is cut into districts along the parcels' own borders, each is judged, and so are the districts in the city's outline. All parcels tile the city if all of these tile: that is proved.&lt;/p&gt;&lt;p&gt;If a district has no verdict, the verdict is &lt;b&gt;open&lt;/b&gt;. Outputs are those of &lt;b&gt;Check parcels&lt;/b&gt;.&lt;/p&gt;</source>
        <translation>&lt;p&gt;Prüft einen Layer jeder Größe. Ein Lauf des Programms nimmt 65.536 Flurstücke; ein größerer Layer wird an den Grenzen der Flurstücke in Bezirke geschnitten, jeder wird beurteilt, und ebenso die Bezirke im Umriss der Stadt. Alle Flurstücke decken die Stadt lückenlos, wenn alle diese es tun: Das ist bewiesen.&lt;/p&gt;&lt;p&gt;Hat ein Bezirk kein Urteil, ist das Urteil &lt;b&gt;open&lt;/b&gt;. Die Ausgaben sind die von &lt;b&gt;Flurstücke prüfen&lt;/b&gt;.&lt;/p&gt;</translation>
    </message>
    <message>
        <source>&lt;p&gt;Checks that parcels tile their city: no gap, no overlap.&lt;/p&gt;&lt;p&gt;The output &lt;b&gt;Faults&lt;/b&gt; has each gap, overlap, open gap (open to the outside) and sliver as a polygon, with the numbers of the parcels there and its area. How many there are of each kind are outputs, which models can use.&lt;/p&gt;&lt;p&gt;Selected features alone are checked if you ask for that. The layer is not changed.&lt;/p&gt;</source>
        <translation>&lt;p&gt;Prüft, dass Flurstücke ihre Stadt lückenlos decken: keine Lücke, keine Überlappung.&lt;/p&gt;&lt;p&gt;Die Ausgabe &lt;b&gt;Fehler&lt;/b&gt; hat jede Lücke, Überlappung, offene (nach außen offene) Lücke und jeden Splitter als Polygon, mit den Nummern der Flurstücke dort und der Fläche. Wie viele es von jeder Art sind, sind Ausgaben, die Modelle nutzen können.&lt;/p&gt;&lt;p&gt;Auf Wunsch werden nur gewählte Objekte geprüft. Der Layer wird nicht geändert.&lt;/p&gt;</translation>
    </message>
    <message>
        <source>&lt;p&gt;For each point the parcel that it is &lt;i&gt;inside&lt;/i&gt;, or all parcels on whose border it lies (&lt;i&gt;edge&lt;/i&gt;); else it is &lt;i&gt;outside&lt;/i&gt;. The parcels have to tile their city.&lt;/p&gt;&lt;p&gt;A point is looked for at the nearest whole millimetre, &lt;i&gt;moved_mm&lt;/i&gt; away (measured).&lt;/p&gt;</source>
        <translation>&lt;p&gt;Für jeden Punkt das Flurstück, in dem er liegt (&lt;i&gt;inside&lt;/i&gt;), oder alle Flurstücke, auf deren Grenze er liegt (&lt;i&gt;edge&lt;/i&gt;); sonst ist er &lt;i&gt;outside&lt;/i&gt;. Die Flurstücke müssen ihre Stadt lückenlos decken.&lt;/p&gt;&lt;p&gt;Ein Punkt wird am nächsten ganzen Millimeter gesucht, &lt;i&gt;moved_mm&lt;/i&gt; entfernt (gemessen).&lt;/p&gt;</translation>
    </message>
    <message>
        <source>&lt;p&gt;The parcels on the grid of whole millimetres, each with all corners of its neighbours that lie on its borders. No gap and no overlap is mended.&lt;/p&gt;&lt;p&gt;&lt;b&gt;Prepared parcels&lt;/b&gt; have the attributes of the layer, and in &lt;i&gt;records&lt;/i&gt; the records of the program, which clerks' edits name. &lt;b&gt;Changed corners&lt;/b&gt; are those that were moved, put in or made to touch, with the distance in millimetres (measured).&lt;/p&gt;&lt;p&gt;A &lt;b&gt;folder&lt;/b&gt;, if you name one, is what &lt;i&gt;parcel_tool&lt;/i&gt; and its sessions read.&lt;/p&gt;</source>
        <translation>&lt;p&gt;Die Flurstücke auf dem Gitter ganzer Millimeter, jedes mit allen Eckpunkten seiner Nachbarn, die auf seinen Grenzen liegen. Keine Lücke und keine Überlappung wird behoben.&lt;/p&gt;&lt;p&gt;&lt;b&gt;Vorbereitete Flurstücke&lt;/b&gt; haben die Attribute des Layers und in &lt;i&gt;records&lt;/i&gt; die Datensätze des Programms, die Änderungen nennen. &lt;b&gt;Geänderte Eckpunkte&lt;/b&gt; sind die, die verschoben, eingefügt oder zum Berühren gebracht wurden, mit dem Abstand in Millimetern (gemessen).&lt;/p&gt;&lt;p&gt;Einen &lt;b&gt;Ordner&lt;/b&gt;, wenn Sie einen nennen, lesen &lt;i&gt;parcel_tool&lt;/i&gt; und seine Sitzungen.&lt;/p&gt;</translation>
    </message>
    <message>
        <source>&lt;p&gt;Which parcels lie in which zones, also where the layers do not tile.&lt;/p&gt;&lt;p&gt;&lt;b&gt;Split parcels&lt;/b&gt; are those in two zones or more, with the zones' names. &lt;b&gt;Parts&lt;/b&gt; are what each has in each zone, with its area. The &lt;b&gt;joined table&lt;/b&gt; has a row for each parcel and zone that overlap, with the attributes of both. &lt;b&gt;Pairs&lt;/b&gt; are the table without attributes. &lt;b&gt;Faults&lt;/b&gt; are those of parcels and zones.&lt;/p&gt;&lt;p&gt;That a parcel and a zone overlap is exact; those that only touch are not told. Where both layers tile, areas are proved: twice the area in mm², &lt;i&gt;area2_mm2&lt;/i&gt;, is at most 1 off, and a parcel's areas sum to its own. Else they are measured (&lt;i&gt;area_how&lt;/i&gt;). Where a parcel overlaps no zone, or lies beyond the city, the table has a zone that is measured at a point inside it, or none (&lt;i&gt;zone_how&lt;/i&gt;).&lt;/p&gt;</source>
        <translation>&lt;p&gt;Welche Flurstücke in welchen Zonen liegen, auch wo die Layer nicht lückenlos decken.&lt;/p&gt;&lt;p&gt;&lt;b&gt;Geteilte Flurstücke&lt;/b&gt; sind die in zwei oder mehr Zonen, mit den Namen der Zonen. &lt;b&gt;Teile&lt;/b&gt; sind, was jedes in jeder Zone hat, mit der Fläche. Die &lt;b&gt;verbundene Tabelle&lt;/b&gt; hat eine Zeile je Flurstück und Zone, die sich überlappen, mit den Attributen beider. &lt;b&gt;Paare&lt;/b&gt; sind die Tabelle ohne Attribute. &lt;b&gt;Fehler&lt;/b&gt; sind die der Flurstücke und der Zonen.&lt;/p&gt;&lt;p&gt;Dass Flurstück und Zone sich überlappen, ist exakt; die sich nur berühren, werden nicht genannt. Wo beide Layer lückenlos decken, sind Flächen bewiesen: Die doppelte Fläche in mm², &lt;i&gt;area2_mm2&lt;/i&gt;, weicht höchstens um 1 ab, und die Flächen eines Flurstücks ergeben seine eigene. Sonst sind sie gemessen (&lt;i&gt;area_how&lt;/i&gt;). Wo ein Flurstück keine Zone überlappt oder jenseits der Stadt liegt, hat die Tabelle eine Zone, die an einem Punkt in ihm gemessen ist, oder keine (&lt;i&gt;zone_how&lt;/i&gt;).&lt;/p&gt;</translation>
    </message>
    <message>
        <source>A border bends at this corner, or a third one ends there.</source>
        <translation>In dieser Ecke knickt eine Grenze ab, oder eine dritte endet dort.</translation>
    </message>
    <message>
        <source>A border moves by {far} at most.</source>
        <translation>Eine Grenze verschiebt sich um höchstens {far}.</translation>
    </message>
    <message>
        <source>A corner this near to a border touches it (mm)</source>
        <translation>Ein Eckpunkt so nahe an einer Grenze berührt sie (mm)</translation>
    </message>
    <message>
        <source>A parcel of this edit was changed meanwhile: look at the map, and draw it again.</source>
        <translation>Ein Flurstück dieser Änderung wurde inzwischen geändert: Sehen Sie auf die Karte, und zeichnen Sie sie noch einmal.</translation>
    </message>
    <message>
        <source>A part would have no area, or the path leaves the parcel.</source>
        <translation>Ein Teil hätte keine Fläche, oder der Weg verlässt das Flurstück.</translation>
    </message>
    <message>
        <source>A register of faults needs a layer in a file: save this one as a GeoPackage first.</source>
        <translation>Ein Fehlerverzeichnis braucht einen Layer in einer Datei: Speichern Sie diesen zuerst als GeoPackage.</translation>
    </message>
    <message>
        <source>Accept as an exception</source>
        <translation>Als Ausnahme annehmen</translation>
    </message>
    <message>
        <source>Accepted, with your reason, in the register of faults.</source>
        <translation>Mit Ihrer Begründung im Fehlerverzeichnis angenommen.</translation>
    </message>
    <message>
        <source>Add to the list</source>
        <translation>Auf die Liste setzen</translation>
    </message>
    <message>
        <source>Address</source>
        <translation>Adresse</translation>
    </message>
    <message>
        <source>After a check, each parcel that you change is checked at once, with its neighbours alone.</source>
        <translation>Nach einer Prüfung wird jedes Flurstück, das Sie ändern, sofort geprüft, allein mit seinen Nachbarn.</translation>
    </message>
    <message>
        <source>All kinds</source>
        <translation>Alle Arten</translation>
    </message>
    <message>
        <source>An output can't be written: {reason}</source>
        <translation>Eine Ausgabe kann nicht geschrieben werden: {reason}</translation>
    </message>
    <message>
        <source>Answers</source>
        <translation>Antworten</translation>
    </message>
    <message>
        <source>Apply</source>
        <translation>Anwenden</translation>
    </message>
    <message>
        <source>Apply edits</source>
        <translation>Änderungen anwenden</translation>
    </message>
    <message>
        <source>Apply to all of this kind</source>
        <translation>Auf alle dieser Art anwenden</translation>
    </message>
    <message>
        <source>Area (m²)</source>
        <translation>Fläche (m²)</translation>
    </message>
    <message>
        <source>Beyond the city</source>
        <translation>Jenseits der Stadt</translation>
    </message>
    <message>
        <source>By default 1 mm.</source>
        <translation>Ohne Angabe 1 mm.</translation>
    </message>
    <message>
        <source>By default what the layer's grid needs.</source>
        <translation>Ohne Angabe so viel, wie das Gitter des Layers braucht.</translation>
    </message>
    <message>
        <source>Cancel</source>
        <translation>Abbrechen</translation>
    </message>
    <message>
        <source>Cancelled.</source>
        <translation>Abgebrochen.</translation>
    </message>
    <message>
        <source>Cancelled: the check has ended, and nothing was written.</source>
        <translation>Abgebrochen: Die Prüfung ist beendet, und nichts wurde geschrieben.</translation>
    </message>
    <message>
        <source>Changed corners</source>
        <translation>Geänderte Eckpunkte</translation>
    </message>
    <message>
        <source>Check a large layer by districts</source>
        <translation>Einen großen Layer nach Bezirken prüfen</translation>
    </message>
    <message>
        <source>Check again to see what is left.</source>
        <translation>Prüfen Sie erneut, um zu sehen, was bleibt.</translation>
    </message>
    <message>
        <source>Check parcels</source>
        <translation>Flurstücke prüfen</translation>
    </message>
    <message>
        <source>Check the edited layer</source>
        <translation>Den bearbeiteten Layer prüfen</translation>
    </message>
    <message>
        <source>Check while I edit</source>
        <translation>Beim Bearbeiten prüfen</translation>
    </message>
    <message>
        <source>Checked while you edit: {counts}.</source>
        <translation>Beim Bearbeiten geprüft: {counts}.</translation>
    </message>
    <message>
        <source>Checking {layer} ..</source>
        <translation>{layer} wird geprüft ..</translation>
    </message>
    <message>
        <source>Checks the layer as it is in the window; edits need not be saved.</source>
        <translation>Prüft den Layer, wie er im Fenster ist; Änderungen müssen nicht gespeichert sein.</translation>
    </message>
    <message>
        <source>Choose a layer, and check it.</source>
        <translation>Wählen Sie einen Layer, und prüfen Sie ihn.</translation>
    </message>
    <message>
        <source>City</source>
        <translation>Stadt</translation>
    </message>
    <message>
        <source>City's outline</source>
        <translation>Umriss der Stadt</translation>
    </message>
    <message>
        <source>Clerk's file of edits</source>
        <translation>Datei mit Änderungen</translation>
    </message>
    <message>
        <source>Click a border.</source>
        <translation>Klicken Sie auf eine Grenze.</translation>
    </message>
    <message>
        <source>Click a corner.</source>
        <translation>Klicken Sie auf eine Ecke.</translation>
    </message>
    <message>
        <source>Click the neighbour.</source>
        <translation>Klicken Sie auf den Nachbarn.</translation>
    </message>
    <message>
        <source>Click the parcel, and then its border where the new corner comes.</source>
        <translation>Klicken Sie auf das Flurstück, dann auf seine Grenze, wo die neue Ecke hinkommt.</translation>
    </message>
    <message>
        <source>Click the parcel, and then the corner that goes, where the borders go straight on.</source>
        <translation>Klicken Sie auf das Flurstück, dann auf die Ecke, die wegfällt, wo die Grenzen gerade weitergehen.</translation>
    </message>
    <message>
        <source>Click the parcel, and then the neighbour that becomes one with it.</source>
        <translation>Klicken Sie auf das Flurstück, dann auf den Nachbarn, der mit ihm eins wird.</translation>
    </message>
    <message>
        <source>Click the parcel, the neighbour, and then the corners of the new border between its two ends.</source>
        <translation>Klicken Sie auf das Flurstück, den Nachbarn, dann auf die Ecken der neuen Grenze zwischen ihren beiden Enden.</translation>
    </message>
    <message>
        <source>Click the parcel, then the corner where the cut begins, its corners, and the corner where it ends.</source>
        <translation>Klicken Sie auf das Flurstück, dann auf die Ecke, in der der Schnitt beginnt, auf seine Ecken, und auf die, in der er endet.</translation>
    </message>
    <message>
        <source>Compare with a register's session</source>
        <translation>Mit der Sitzung eines Registers vergleichen</translation>
    </message>
    <message>
        <source>Compared parcels</source>
        <translation>Verglichene Flurstücke</translation>
    </message>
    <message>
        <source>Connect</source>
        <translation>Verbinden</translation>
    </message>
    <message>
        <source>Corners disagree here, so nothing was changed in {layer}: parcels {numbers}. Repair shows what can be done.</source>
        <translation>Hier widersprechen sich Eckpunkte, deshalb wurde in {layer} nichts geändert: Flurstücke {numbers}. „Beheben“ zeigt, was möglich ist.</translation>
    </message>
    <message>
        <source>Corners disagree here: Repair shows what can be done. Inserting changes nothing.</source>
        <translation>Hier widersprechen sich Eckpunkte: „Beheben“ zeigt, was möglich ist. Einfügen ändert nichts.</translation>
    </message>
    <message>
        <source>Desk: the path of its pipes, without .in or .out</source>
        <translation>Arbeitsplatz: der Pfad seiner Pipes, ohne .in oder .out</translation>
    </message>
    <message>
        <source>Disconnect</source>
        <translation>Trennen</translation>
    </message>
    <message>
        <source>Do not save new faults</source>
        <translation>Neue Fehler nicht speichern</translation>
    </message>
    <message>
        <source>Drop</source>
        <translation>Verwerfen</translation>
    </message>
    <message>
        <source>Edited parcels</source>
        <translation>Bearbeitete Flurstücke</translation>
    </message>
    <message>
        <source>Ends the check.</source>
        <translation>Beendet die Prüfung.</translation>
    </message>
    <message>
        <source>Export the register ..</source>
        <translation>Verzeichnis exportieren ..</translation>
    </message>
    <message>
        <source>Faults</source>
        <translation>Fehler</translation>
    </message>
    <message>
        <source>Faults of parcels</source>
        <translation>Fehler der Flurstücke</translation>
    </message>
    <message>
        <source>Field of the parcels' numbers</source>
        <translation>Feld der Flurstücksnummern</translation>
    </message>
    <message>
        <source>Field of the zones' names</source>
        <translation>Feld der Zonennamen</translation>
    </message>
    <message>
        <source>Folder for the program</source>
        <translation>Ordner für das Programm</translation>
    </message>
    <message>
        <source>For the program's verdict click Check.</source>
        <translation>Für das Urteil des Programms klicken Sie auf „Prüfen“.</translation>
    </message>
    <message>
        <source>Gandovel: check of {layer}</source>
        <translation>Gandovel: Prüfung von {layer}</translation>
    </message>
    <message>
        <source>Gandovel: exact check of parcel layers</source>
        <translation>Gandovel: exakte Prüfung von Flurstückslayern</translation>
    </message>
    <message>
        <source>Gandovel: posting edits</source>
        <translation>Gandovel: Änderungen werden gesendet</translation>
    </message>
    <message>
        <source>Gandovel: reading the register</source>
        <translation>Gandovel: das Register wird gelesen</translation>
    </message>
    <message>
        <source>Gap</source>
        <translation>Lücke</translation>
    </message>
    <message>
        <source>Give it to parcel {parcel}, whose border there is {length} long</source>
        <translation>An Flurstück {parcel} geben, dessen Grenze dort {length} lang ist</translation>
    </message>
    <message>
        <source>Go on without invalid features</source>
        <translation>Ohne ungültige Objekte fortfahren</translation>
    </message>
    <message>
        <source>Greatest width of an open gap (m)</source>
        <translation>Größte Breite einer offenen Lücke (m)</translation>
    </message>
    <message>
        <source>Held: the layer has new faults. Mend them, accept them, or take edits back.</source>
        <translation>Angehalten: Der Layer hat neue Fehler. Beheben Sie sie, nehmen Sie sie an, oder machen Sie Änderungen rückgängig.</translation>
    </message>
    <message>
        <source>Help</source>
        <translation>Hilfe</translation>
    </message>
    <message>
        <source>Insert a corner</source>
        <translation>Ecke einfügen</translation>
    </message>
    <message>
        <source>Insert missing corners</source>
        <translation>Fehlende Eckpunkte einfügen</translation>
    </message>
    <message>
        <source>Insert puts 1 corner into parcel {parcel} of {layer}.</source>
        <translation>Einfügen setzt 1 Eckpunkt in Flurstück {parcel} von {layer}.</translation>
    </message>
    <message>
        <source>Insert puts {count} corners into parcel {parcel} of {layer}.</source>
        <translation>Einfügen setzt {count} Eckpunkte in Flurstück {parcel} von {layer}.</translation>
    </message>
    <message>
        <source>Insert the missing corner</source>
        <translation>Fehlenden Eckpunkt einfügen</translation>
    </message>
    <message>
        <source>It can be posted.</source>
        <translation>Es kann gesendet werden.</translation>
    </message>
    <message>
        <source>Joined table</source>
        <translation>Verbundene Tabelle</translation>
    </message>
    <message>
        <source>Keep a register of faults</source>
        <translation>Ein Fehlerverzeichnis führen</translation>
    </message>
    <message>
        <source>Keep as a draft</source>
        <translation>Als Entwurf behalten</translation>
    </message>
    <message>
        <source>Kept as a draft. It would bring {areas}.</source>
        <translation>Als Entwurf behalten. Er brächte {areas}.</translation>
    </message>
    <message>
        <source>Kept until QGIS is closed. Without TLS it goes in clear text.</source>
        <translation>Wird behalten, bis QGIS geschlossen wird. Ohne TLS geht es im Klartext.</translation>
    </message>
    <message>
        <source>Kind</source>
        <translation>Art</translation>
    </message>
    <message>
        <source>Last: {kind} by {who}.</source>
        <translation>Zuletzt: {kind} durch {who}.</translation>
    </message>
    <message>
        <source>Live checking stopped ({reason}): check again.</source>
        <translation>Das Prüfen beim Bearbeiten hat geendet ({reason}): Prüfen Sie erneut.</translation>
    </message>
    <message>
        <source>Live checking stopped here ({reason}): check again.</source>
        <translation>Das Prüfen beim Bearbeiten endet hier ({reason}): Prüfen Sie erneut.</translation>
    </message>
    <message>
        <source>Live register</source>
        <translation>Laufendes Register</translation>
    </message>
    <message>
        <source>Live: refused: {text}</source>
        <translation>Beim Bearbeiten abgelehnt: {text}</translation>
    </message>
    <message>
        <source>Locate points</source>
        <translation>Punkte verorten</translation>
    </message>
    <message>
        <source>Located points</source>
        <translation>Verortete Punkte</translation>
    </message>
    <message>
        <source>Longest wait for an answer (s)</source>
        <translation>Längste Wartezeit auf eine Antwort (s)</translation>
    </message>
    <message>
        <source>Made: entries {numbers}.</source>
        <translation>Gemacht: Einträge {numbers}.</translation>
    </message>
    <message>
        <source>Mend all faults of one kind</source>
        <translation>Alle Fehler einer Art beheben</translation>
    </message>
    <message>
        <source>Merge</source>
        <translation>Vereinigen</translation>
    </message>
    <message>
        <source>Most rings of a district</source>
        <translation>Höchstzahl der Ringe eines Bezirks</translation>
    </message>
    <message>
        <source>Move a border</source>
        <translation>Grenze verlegen</translation>
    </message>
    <message>
        <source>Move the odd corner of parcel {parcel} to where the others agree</source>
        <translation>Den abweichenden Eckpunkt von Flurstück {parcel} dorthin verschieben, wo die anderen übereinstimmen</translation>
    </message>
    <message>
        <source>Narrower notches and channels that are open to the outside are open gaps. By default 1 m.</source>
        <translation>Schmalere Einschnitte und Gänge, die nach außen offen sind, sind offene Lücken. Ohne Angabe 1 m.</translation>
    </message>
    <message>
        <source>Next fault</source>
        <translation>Nächster Fehler</translation>
    </message>
    <message>
        <source>No corner is missing here: each parcel of {layer} has corners of its own. Move them with the vertex tool.</source>
        <translation>Hier fehlt kein Eckpunkt: Jedes Flurstück von {layer} hat eigene. Verschieben Sie sie mit dem Stützpunktwerkzeug.</translation>
    </message>
    <message>
        <source>No fault is chosen.</source>
        <translation>Kein Fehler ist gewählt.</translation>
    </message>
    <message>
        <source>No parcel has this corner.</source>
        <translation>Kein Flurstück hat diese Ecke.</translation>
    </message>
    <message>
        <source>No two parcels may have the same number. Without a field, rows are numbered from 1.</source>
        <translation>Keine zwei Flurstücke dürfen dieselbe Nummer haben. Ohne Feld werden die Zeilen ab 1 nummeriert.</translation>
    </message>
    <message>
        <source>Not connected.</source>
        <translation>Nicht verbunden.</translation>
    </message>
    <message>
        <source>Not connected: its layer was taken from the project.</source>
        <translation>Nicht verbunden: Sein Layer wurde aus dem Projekt genommen.</translation>
    </message>
    <message>
        <source>Notes each verdict's faults in a table beside the layer: when they were seen, and what was decided.</source>
        <translation>Hält die Fehler jedes Urteils in einer Tabelle beim Layer fest: wann sie gesehen wurden und was entschieden wurde.</translation>
    </message>
    <message>
        <source>Number</source>
        <translation>Nummer</translation>
    </message>
    <message>
        <source>Number of changed corners</source>
        <translation>Zahl der geänderten Eckpunkte</translation>
    </message>
    <message>
        <source>Number of edits made</source>
        <translation>Zahl der ausgeführten Änderungen</translation>
    </message>
    <message>
        <source>Number of edits refused</source>
        <translation>Zahl der abgelehnten Änderungen</translation>
    </message>
    <message>
        <source>Number of edits that the session has made</source>
        <translation>Zahl der Änderungen der Sitzung</translation>
    </message>
    <message>
        <source>Number of features that were skipped</source>
        <translation>Zahl der übergangenen Objekte</translation>
    </message>
    <message>
        <source>Number of gaps</source>
        <translation>Zahl der Lücken</translation>
    </message>
    <message>
        <source>Number of gaps that are open to the outside</source>
        <translation>Zahl der nach außen offenen Lücken</translation>
    </message>
    <message>
        <source>Number of overlaps</source>
        <translation>Zahl der Überlappungen</translation>
    </message>
    <message>
        <source>Number of parcels and zones that overlap</source>
        <translation>Zahl der Flurstücke und Zonen, die sich überlappen</translation>
    </message>
    <message>
        <source>Number of parcels that are new in the session</source>
        <translation>Zahl der in der Sitzung neuen Flurstücke</translation>
    </message>
    <message>
        <source>Number of parcels that are the same</source>
        <translation>Zahl der gleichen Flurstücke</translation>
    </message>
    <message>
        <source>Number of parcels that edits took out</source>
        <translation>Zahl der durch Änderungen entfallenen Flurstücke</translation>
    </message>
    <message>
        <source>Number of parcels whose border differs</source>
        <translation>Zahl der Flurstücke mit anderer Grenze</translation>
    </message>
    <message>
        <source>Number of parts beyond the city</source>
        <translation>Zahl der Teile jenseits der Stadt</translation>
    </message>
    <message>
        <source>Number of parts of the city</source>
        <translation>Zahl der Teile der Stadt</translation>
    </message>
    <message>
        <source>Number of points inside a parcel</source>
        <translation>Zahl der Punkte in einem Flurstück</translation>
    </message>
    <message>
        <source>Number of points on a border</source>
        <translation>Zahl der Punkte auf einer Grenze</translation>
    </message>
    <message>
        <source>Number of points outside</source>
        <translation>Zahl der Punkte außerhalb</translation>
    </message>
    <message>
        <source>Number of slivers</source>
        <translation>Zahl der Splitter</translation>
    </message>
    <message>
        <source>Number of split parcels</source>
        <translation>Zahl der geteilten Flurstücke</translation>
    </message>
    <message>
        <source>Open gap</source>
        <translation>Offene Lücke</translation>
    </message>
    <message>
        <source>Opens the page of this plugin.</source>
        <translation>Öffnet die Seite dieser Erweiterung.</translation>
    </message>
    <message>
        <source>Out of date: another number or unit was chosen after this verdict. Check {layer} again.</source>
        <translation>Veraltet: Nach diesem Urteil wurde eine andere Nummer oder Einheit gewählt. Prüfen Sie {layer} erneut.</translation>
    </message>
    <message>
        <source>Out of date: the city is another one now, or was changed. Check {layer} again.</source>
        <translation>Veraltet: Die Stadt ist jetzt eine andere oder wurde geändert. Prüfen Sie {layer} erneut.</translation>
    </message>
    <message>
        <source>Out of date: {layer} was changed after this verdict. Check it again.</source>
        <translation>Veraltet: {layer} wurde nach diesem Urteil geändert. Prüfen Sie ihn erneut.</translation>
    </message>
    <message>
        <source>Overlap</source>
        <translation>Überlappung</translation>
    </message>
    <message>
        <source>Overlay zones</source>
        <translation>Mit Zonen verschneiden</translation>
    </message>
    <message>
        <source>Pairs of parcel and zone</source>
        <translation>Paare von Flurstück und Zone</translation>
    </message>
    <message>
        <source>Parcel {parcel} keeps it</source>
        <translation>Flurstück {parcel} behält es</translation>
    </message>
    <message>
        <source>Parcel {parcel}: {before} m², then {after} m²</source>
        <translation>Flurstück {parcel}: {before} m², danach {after} m²</translation>
    </message>
    <message>
        <source>Parcels</source>
        <translation>Flurstücke</translation>
    </message>
    <message>
        <source>Parcels of {layer} at this fault are no longer there: check again.</source>
        <translation>Flurstücke von {layer} an diesem Fehler gibt es nicht mehr: Prüfen Sie erneut.</translation>
    </message>
    <message>
        <source>Part of the city, from 1</source>
        <translation>Teil der Stadt, ab 1</translation>
    </message>
    <message>
        <source>Parts of less are marked as slivers (m²)</source>
        <translation>Kleinere Teile werden als Splitter gekennzeichnet (m²)</translation>
    </message>
    <message>
        <source>Parts of split parcels</source>
        <translation>Teile geteilter Flurstücke</translation>
    </message>
    <message>
        <source>Parts that do not touch have records of their own.</source>
        <translation>Teile, die sich nicht berühren, haben eigene Datensätze.</translation>
    </message>
    <message>
        <source>Points</source>
        <translation>Punkte</translation>
    </message>
    <message>
        <source>Post</source>
        <translation>Senden</translation>
    </message>
    <message>
        <source>Prepare</source>
        <translation>Vorbereiten</translation>
    </message>
    <message>
        <source>Prepared parcels</source>
        <translation>Vorbereitete Flurstücke</translation>
    </message>
    <message>
        <source>Program parcel_tool (empty: the package's own, or the one on PATH)</source>
        <translation>Programm parcel_tool (leer: das des Pakets oder das im PATH)</translation>
    </message>
    <message>
        <source>Put {corners} into parcel {parcel}</source>
        <translation>{corners} in Flurstück {parcel} setzen</translation>
    </message>
    <message>
        <source>Puts the corner that is missing at the chosen fault into the neighbour; undo takes it back.</source>
        <translation>Setzt den Eckpunkt, der am gewählten Fehler fehlt, in den Nachbarn; Rückgängig nimmt ihn zurück.</translation>
    </message>
    <message>
        <source>Python that has the package gandovel (empty: the first that has it)</source>
        <translation>Python, das das Paket gandovel hat (leer: das erste, das es hat)</translation>
    </message>
    <message>
        <source>Reading {address} ..</source>
        <translation>{address} wird gelesen ..</translation>
    </message>
    <message>
        <source>Refuse to move a corner farther than (mm)</source>
        <translation>Einen Eckpunkt nicht weiter verschieben als (mm)</translation>
    </message>
    <message>
        <source>Register {address}</source>
        <translation>Register {address}</translation>
    </message>
    <message>
        <source>Remove a corner</source>
        <translation>Ecke entfernen</translation>
    </message>
    <message>
        <source>Repair ..</source>
        <translation>Beheben ..</translation>
    </message>
    <message>
        <source>Repair faults</source>
        <translation>Fehler beheben</translation>
    </message>
    <message>
        <source>Rows of the session's parcels (rows.csv of its folder)</source>
        <translation>Zeilen der Flurstücke der Sitzung (rows.csv ihres Ordners)</translation>
    </message>
    <message>
        <source>Saving is held while the layer has faults that the last check had not.</source>
        <translation>Das Speichern wird angehalten, solange der Layer Fehler hat, die die letzte Prüfung nicht hatte.</translation>
    </message>
    <message>
        <source>Say in Check parcels how near to a border a corner touches it (advanced). These fit (mm): {distances}.</source>
        <translation>Sagen Sie in „Flurstücke prüfen“, wie nah an einer Grenze eine Ecke sie berührt (erweitert). Diese passen (mm): {distances}.</translation>
    </message>
    <message>
        <source>Say why: an exception has a reason.</source>
        <translation>Sagen Sie, warum: Eine Ausnahme hat eine Begründung.</translation>
    </message>
    <message>
        <source>Several rows may have the same name. Without a field, rows are numbered from 1.</source>
        <translation>Mehrere Zeilen dürfen denselben Namen haben. Ohne Feld werden die Zeilen ab 1 nummeriert.</translation>
    </message>
    <message>
        <source>Shows what can be done about the chosen fault, with areas before and after.</source>
        <translation>Zeigt, was am gewählten Fehler möglich ist, mit Flächen davor und danach.</translation>
    </message>
    <message>
        <source>Sliver</source>
        <translation>Splitter</translation>
    </message>
    <message>
        <source>Split</source>
        <translation>Teilen</translation>
    </message>
    <message>
        <source>Split parcels</source>
        <translation>Geteilte Flurstücke</translation>
    </message>
    <message>
        <source>Start editing {layer} first.</source>
        <translation>Beginnen Sie zuerst die Bearbeitung von {layer}.</translation>
    </message>
    <message>
        <source>Start editing {layer} first: the corner is an edit that undo takes back.</source>
        <translation>Beginnen Sie zuerst die Bearbeitung von {layer}: Der Eckpunkt ist eine Änderung, die Rückgängig zurücknimmt.</translation>
    </message>
    <message>
        <source>State</source>
        <translation>Stand</translation>
    </message>
    <message>
        <source>Take back</source>
        <translation>Zurücknehmen</translation>
    </message>
    <message>
        <source>Take from the list</source>
        <translation>Von der Liste nehmen</translation>
    </message>
    <message>
        <source>The Python package gandovel was not found, or GeoPandas and tqdm, which it needs: install it from a release into ~/gandovel, as its README says, or name the Python that has it in {where}.</source>
        <translation>Das Python-Paket gandovel wurde nicht gefunden, oder GeoPandas und tqdm, die es braucht: Installieren Sie es aus einem Release nach ~/gandovel, wie die README sagt, oder nennen Sie das Python, das es hat, unter {where}.</translation>
    </message>
    <message>
        <source>The address {address} is no register of gandovel serve ({reason}).</source>
        <translation>Die Adresse {address} ist kein Register von gandovel serve ({reason}).</translation>
    </message>
    <message>
        <source>The border was changed by another edit: click it again.</source>
        <translation>Die Grenze wurde durch eine andere Änderung geändert: Klicken Sie noch einmal darauf.</translation>
    </message>
    <message>
        <source>The check failed: {reason}</source>
        <translation>Die Prüfung ist gescheitert: {reason}</translation>
    </message>
    <message>
        <source>The city has {count} parts that do not touch one another.</source>
        <translation>Die Stadt hat {count} Teile, die einander nicht berühren.</translation>
    </message>
    <message>
        <source>The city's outline is made of the parcels; give a layer of it to find gaps along it.</source>
        <translation>Der Umriss der Stadt ist aus den Flurstücken gebildet; geben Sie einen Layer von ihm an, um Lücken an ihm zu finden.</translation>
    </message>
    <message>
        <source>The fault before ({key})</source>
        <translation>Der vorige Fehler ({key})</translation>
    </message>
    <message>
        <source>The largest is at ({x}, {y}), at the parcels {numbers}.</source>
        <translation>Der größte liegt bei ({x}, {y}), an den Flurstücken {numbers}.</translation>
    </message>
    <message>
        <source>The layer that was checked is gone.</source>
        <translation>Den Layer, der geprüft wurde, gibt es nicht mehr.</translation>
    </message>
    <message>
        <source>The layer {name} can't be written for the check: {reason}</source>
        <translation>Der Layer {name} kann nicht für die Prüfung geschrieben werden: {reason}</translation>
    </message>
    <message>
        <source>The layer {name} has no feature: choose another, or do not ask for the selected ones alone.</source>
        <translation>Der Layer {name} hat kein Objekt: Wählen Sie einen anderen, oder verlangen Sie nicht nur die gewählten.</translation>
    </message>
    <message>
        <source>The layer {name} has no field {field}: choose one of {names}.</source>
        <translation>Der Layer {name} hat kein Feld {field}: Wählen Sie eines von {names}.</translation>
    </message>
    <message>
        <source>The layer {name} has no projection: give it one, or name the unit of its coordinates.</source>
        <translation>Der Layer {name} hat keine Projektion: Geben Sie ihm eine, oder nennen Sie die Einheit seiner Koordinaten.</translation>
    </message>
    <message>
        <source>The neighbour is gone: another edit took it out.</source>
        <translation>Der Nachbar ist weg: Eine andere Änderung hat ihn herausgenommen.</translation>
    </message>
    <message>
        <source>The new border has to begin and end where the old one does.</source>
        <translation>Die neue Grenze muss beginnen und enden, wo es die alte tut.</translation>
    </message>
    <message>
        <source>The next fault ({key})</source>
        <translation>Der nächste Fehler ({key})</translation>
    </message>
    <message>
        <source>The package gandovel wrote no layer {name}: install the version that fits this plugin.</source>
        <translation>Das Paket gandovel hat keinen Layer {name} geschrieben: Installieren Sie die Version, die zu dieser Erweiterung passt.</translation>
    </message>
    <message>
        <source>The parcel is gone: another edit took it out.</source>
        <translation>Das Flurstück ist weg: Eine andere Änderung hat es herausgenommen.</translation>
    </message>
    <message>
        <source>The parcel would touch itself.</source>
        <translation>Das Flurstück würde sich selbst berühren.</translation>
    </message>
    <message>
        <source>The parcels</source>
        <translation>Die Flurstücke</translation>
    </message>
    <message>
        <source>The parcels do not tile the city: {counts}.</source>
        <translation>Die Flurstücke decken die Stadt nicht lückenlos: {counts}.</translation>
    </message>
    <message>
        <source>The parcels here were changed: check again.</source>
        <translation>Die Flurstücke hier wurden geändert: Prüfen Sie erneut.</translation>
    </message>
    <message>
        <source>The parcels tile the city: {counts}.</source>
        <translation>Die Flurstücke decken die Stadt lückenlos: {counts}.</translation>
    </message>
    <message>
        <source>The path crosses itself, touches the border, or leaves the parcel.</source>
        <translation>Der Weg kreuzt sich, berührt die Grenze oder verlässt das Flurstück.</translation>
    </message>
    <message>
        <source>The path does not begin in a corner of the parcel. Put a corner in first.</source>
        <translation>Der Weg beginnt in keiner Ecke des Flurstücks. Fügen Sie zuerst eine Ecke ein.</translation>
    </message>
    <message>
        <source>The path does not end in a corner of the parcel. Put a corner in first.</source>
        <translation>Der Weg endet in keiner Ecke des Flurstücks. Fügen Sie zuerst eine Ecke ein.</translation>
    </message>
    <message>
        <source>The path ends where it begins.</source>
        <translation>Der Weg endet, wo er beginnt.</translation>
    </message>
    <message>
        <source>The path needs a corner to begin in, and another to end in.</source>
        <translation>Der Weg braucht eine Ecke, in der er beginnt, und eine andere, in der er endet.</translation>
    </message>
    <message>
        <source>The program parcel_tool was not found: install it from a release, or name it in {where}. The plugin has none of its own for {platform}: make build makes one from the sources.</source>
        <translation>Das Programm parcel_tool wurde nicht gefunden: Installieren Sie es aus einer Ausgabe, oder nennen Sie es in {where}. Das Plugin hat für {platform} kein eigenes: make build macht eines aus den Quellen.</translation>
    </message>
    <message>
        <source>The register asks for a token: {reason}</source>
        <translation>Das Register verlangt ein Token: {reason}</translation>
    </message>
    <message>
        <source>The register at {address} does not answer: {reason}</source>
        <translation>Das Register unter {address} antwortet nicht: {reason}</translation>
    </message>
    <message>
        <source>The register does not answer; it is asked again.</source>
        <translation>Das Register antwortet nicht; es wird noch einmal gefragt.</translation>
    </message>
    <message>
        <source>The register keeps it, and another clerk approves it on the register's page.</source>
        <translation>Das Register behält ihn, und jemand anderes gibt ihn auf der Seite des Registers frei.</translation>
    </message>
    <message>
        <source>The register of faults in {path} can't be written ({reason}): see whether the file may be written.</source>
        <translation>Das Fehlerverzeichnis in {path} kann nicht geschrieben werden ({reason}): Prüfen Sie, ob die Datei geschrieben werden darf.</translation>
    </message>
    <message>
        <source>The register takes one edit at a time: these are posted one after the other. Where one is refused, those before it stay made, and those after it are not sent.</source>
        <translation>Das Register nimmt Änderungen einzeln an: Diese werden eine nach der anderen gesendet. Wird eine abgewiesen, bleiben die davor gemacht, und die danach werden nicht gesendet.</translation>
    </message>
    <message>
        <source>The two parcels have no border in common.</source>
        <translation>Die beiden Flurstücke haben keine gemeinsame Grenze.</translation>
    </message>
    <message>
        <source>The verdict is open: {counts}.</source>
        <translation>Das Urteil ist offen: {counts}.</translation>
    </message>
    <message>
        <source>The zones</source>
        <translation>Die Zonen</translation>
    </message>
    <message>
        <source>The zones do not tile the city: {counts}.</source>
        <translation>Die Zonen decken die Stadt nicht lückenlos: {counts}.</translation>
    </message>
    <message>
        <source>Their common border is not one unbroken run.</source>
        <translation>Ihre gemeinsame Grenze ist kein zusammenhängendes Stück.</translation>
    </message>
    <message>
        <source>There is no layer of polygons to check: add one to the project.</source>
        <translation>Es gibt keinen Polygonlayer zu prüfen: Fügen Sie dem Projekt einen hinzu.</translation>
    </message>
    <message>
        <source>There is no register: check a layer in a file first.</source>
        <translation>Es gibt kein Verzeichnis: Prüfen Sie zuerst einen Layer in einer Datei.</translation>
    </message>
    <message>
        <source>There is nothing to propose here: move corners with the vertex tool.</source>
        <translation>Hier ist nichts vorzuschlagen: Verschieben Sie Eckpunkte mit dem Stützpunktwerkzeug.</translation>
    </message>
    <message>
        <source>They are told, and the verdict is of the others.</source>
        <translation>Sie werden genannt, und das Urteil gilt für die anderen.</translation>
    </message>
    <message>
        <source>This border has no whole millimetre between its ends: move the border instead.</source>
        <translation>Diese Grenze hat keinen ganzen Millimeter zwischen ihren Enden: Verlegen Sie stattdessen die Grenze.</translation>
    </message>
    <message>
        <source>This is of {layer}, not of the layer that is chosen above. Check that one.</source>
        <translation>Dies gilt für {layer}, nicht für den oben gewählten Layer. Prüfen Sie jenen.</translation>
    </message>
    <message>
        <source>Token</source>
        <translation>Token</translation>
    </message>
    <message>
        <source>Unit</source>
        <translation>Einheit</translation>
    </message>
    <message>
        <source>Unit of layers without a projection</source>
        <translation>Einheit von Layern ohne Projektion</translation>
    </message>
    <message>
        <source>Verdict: tiles, does not tile, or open</source>
        <translation>Urteil: tiles, does not tile oder open</translation>
    </message>
    <message>
        <source>What was done, in one line</source>
        <translation>Was getan wurde, in einer Zeile</translation>
    </message>
    <message>
        <source>Where it is given, a smaller layer is cut into districts, too.</source>
        <translation>Ist sie angegeben, wird auch ein kleinerer Layer in Bezirke geschnitten.</translation>
    </message>
    <message>
        <source>Which faults there are can't be told from the layer's noise: {counts}.</source>
        <translation>Welche Fehler es gibt, lässt sich vom Rauschen des Layers nicht trennen: {counts}.</translation>
    </message>
    <message>
        <source>Why it is no fault: a reason</source>
        <translation>Warum es kein Fehler ist: eine Begründung</translation>
    </message>
    <message>
        <source>Why: stands in the journal</source>
        <translation>Warum: steht im Journal</translation>
    </message>
    <message>
        <source>Without it the outline is made of the parcels, and a gap along it is an open gap.</source>
        <translation>Ohne ihn wird der Umriss aus den Flurstücken gebildet, und eine Lücke an ihm ist eine offene.</translation>
    </message>
    <message>
        <source>Without it, records are as Prepare makes them of this layer.</source>
        <translation>Ohne sie sind die Datensätze so, wie „Vorbereiten“ sie aus diesem Layer macht.</translation>
    </message>
    <message>
        <source>Writes the register of faults of this layer as CSV.</source>
        <translation>Schreibt das Fehlerverzeichnis dieses Layers als CSV.</translation>
    </message>
    <message>
        <source>Writing {name} ..</source>
        <translation>{name} wird geschrieben ..</translation>
    </message>
    <message>
        <source>Zones</source>
        <translation>Zonen</translation>
    </message>
    <message>
        <source>accepted</source>
        <translation>angenommen</translation>
    </message>
    <message>
        <source>another program</source>
        <translation>ein anderes Programm</translation>
    </message>
    <message>
        <source>is the disk full?</source>
        <translation>ist der Datenträger voll?</translation>
    </message>
    <message>
        <source>new</source>
        <translation>neu</translation>
    </message>
    <message>
        <source>no gaps</source>
        <translation>keine Lücken</translation>
    </message>
    <message>
        <source>no open gaps</source>
        <translation>keine offenen Lücken</translation>
    </message>
    <message>
        <source>no overlaps</source>
        <translation>keine Überlappungen</translation>
    </message>
    <message>
        <source>no slivers</source>
        <translation>keine Splitter</translation>
    </message>
    <message>
        <source>open</source>
        <translation>offen</translation>
    </message>
    <message>
        <source>there is no such folder, or it can't be written</source>
        <translation>den Ordner gibt es nicht, oder er kann nicht geschrieben werden</translation>
    </message>
    <message>
        <source>twice its area: {area} mm² (exact)</source>
        <translation>doppelte Fläche: {area} mm² (exakt)</translation>
    </message>
    <message>
        <source>writing the layer</source>
        <translation>der Layer wird geschrieben</translation>
    </message>
    <message>
        <source>{address} is no address: it begins with http:// or https://.</source>
        <translation>{address} ist keine Adresse: Sie beginnt mit http:// oder https://.</translation>
    </message>
    <message>
        <source>{count} corners</source>
        <translation>{count} Eckpunkte</translation>
    </message>
    <message>
        <source>{count} corners were made to touch, at most {largest} off; this closed {closed}.</source>
        <translation>{count} Eckpunkte wurden zum Berühren gebracht, höchstens {largest} daneben; das schloss {closed}.</translation>
    </message>
    <message>
        <source>{count} edits of the list were not sent.</source>
        <translation>{count} Änderungen der Liste wurden nicht gesendet.</translation>
    </message>
    <message>
        <source>{count} faults written to {path}.</source>
        <translation>{count} Fehler nach {path} geschrieben.</translation>
    </message>
    <message>
        <source>{count} features were skipped: {numbers}</source>
        <translation>{count} Objekte wurden übergangen: {numbers}</translation>
    </message>
    <message>
        <source>{count} gaps</source>
        <translation>{count} Lücken</translation>
    </message>
    <message>
        <source>{count} of them came with your edits.</source>
        <translation>{count} davon kamen mit Ihren Änderungen.</translation>
    </message>
    <message>
        <source>{count} open gaps</source>
        <translation>{count} offene Lücken</translation>
    </message>
    <message>
        <source>{count} overlaps</source>
        <translation>{count} Überlappungen</translation>
    </message>
    <message>
        <source>{count} parts beyond the city</source>
        <translation>{count} Teile jenseits der Stadt</translation>
    </message>
    <message>
        <source>{count} slivers</source>
        <translation>{count} Splitter</translation>
    </message>
    <message>
        <source>{edit}: a parcel of it was changed meanwhile. Take it from the list, and draw it again.</source>
        <translation>{edit}: Ein Flurstück davon wurde inzwischen geändert. Nehmen Sie es von der Liste, und zeichnen Sie es noch einmal.</translation>
    </message>
    <message>
        <source>{kind} of zones</source>
        <translation>{kind} der Zonen</translation>
    </message>
    <message>
        <source>{kind} of {area} m² in {layer}, at the parcels {numbers}</source>
        <translation>{kind} von {area} m² in {layer}, an den Flurstücken {numbers}</translation>
    </message>
    <message>
        <source>{kind} was refused ({reason}).</source>
        <translation>{kind} wurde abgewiesen ({reason}).</translation>
    </message>
    <message>
        <source>{layer} do not tile the city.</source>
        <translation>{layer} decken die Stadt nicht lückenlos.</translation>
    </message>
    <message>
        <source>{layer} do not tile the city: there is a fault at ({x}, {y}).</source>
        <translation>{layer} decken die Stadt nicht lückenlos: Bei ({x}, {y}) ist ein Fehler.</translation>
    </message>
    <message>
        <source>{layer}: {corners} put into parcel {parcel}.</source>
        <translation>{layer}: {corners} in Flurstück {parcel} gesetzt.</translation>
    </message>
    <message>
        <source>{layer}: {count} of {all} mended by the same rule.</source>
        <translation>{layer}: {count} von {all} nach derselben Regel behoben.</translation>
    </message>
    <message>
        <source>{layer}: {text}</source>
        <translation>{layer}: {text}</translation>
    </message>
    <message>
        <source>{layer}: {title}.</source>
        <translation>{layer}: {title}.</translation>
    </message>
    <message>
        <source>{parcels} parcels after {entries} entries.</source>
        <translation>{parcels} Flurstücke nach {entries} Einträgen.</translation>
    </message>
    <message>
        <source>{path} can't be written: {reason}</source>
        <translation>{path} kann nicht geschrieben werden: {reason}</translation>
    </message>
    <message>
        <source>{reason} Post again: an edit that was made is not made twice.</source>
        <translation>{reason} Senden Sie noch einmal: Eine Änderung, die gemacht wurde, wird nicht zweimal gemacht.</translation>
    </message>
    <message>
        <source>{title} needs parcels that tile: mend the faults that Check parcels lists.</source>
        <translation>„{title}“ braucht Flurstücke, die lückenlos decken: Beheben Sie die Fehler, die „Flurstücke prüfen“ nennt.</translation>
    </message>
</context>
</TS>
