import java.io.BufferedReader;
import java.io.InputStreamReader;
import java.util.ArrayList;
import java.util.List;
import java.util.StringJoiner;
import org.locationtech.jts.geom.Geometry;
import org.locationtech.jts.geom.LineString;
import org.locationtech.jts.geom.Polygon;
import org.locationtech.jts.geom.PrecisionModel;
import org.locationtech.jts.index.strtree.STRtree;
import org.locationtech.jts.io.WKBReader;
import org.locationtech.jts.io.WKBWriter;
import org.locationtech.jts.operation.overlayng.OverlayNG;
import org.locationtech.jts.operation.overlayng.UnaryUnionNG;

/**
 * Gaps and overlaps of a layer by JTS 1.19, which has no CoverageValidator yet: each pair of parcels whose intersection
 * has an area, and the holes of the union of all, by OverlayNG's snap rounding to a grid of twice the distance by which
 * corners may be off their borders. Without a distance nothing is rounded.
 *
 * <p>It reads lines {@code NUMBER HEX}, a parcel's number and its shape as well-known binary, and prints a line {@code
 * KIND NUMBERS AREA SHAPE} for each fault.
 */
public class JtsFaults {
    /** How near a parcel lies to a gap that it is beside, without a grid. */
    private static final double BESIDE = 0.001;

    private final List<String> numbers = new ArrayList<>();
    private final List<Geometry> shapes = new ArrayList<>();
    private final STRtree tree = new STRtree();
    private final PrecisionModel grid;
    private final double distance;

    private JtsFaults(double distance) {
        this.distance = distance;
        grid = distance > 0 ? new PrecisionModel(-2 * distance) : new PrecisionModel();
    }

    private void read() throws Exception {
        BufferedReader lines = new BufferedReader(new InputStreamReader(System.in));
        WKBReader reader = new WKBReader();
        for (String line = lines.readLine(); line != null; line = lines.readLine()) {
            int at = line.indexOf(' ');
            Geometry shape = reader.read(WKBReader.hexToBytes(line.substring(at + 1)));
            tree.insert(shape.getEnvelopeInternal(), shapes.size());
            numbers.add(line.substring(0, at));
            shapes.add(shape);
        }
    }

    private List<Integer> near(Geometry shape) {
        List<Integer> found = new ArrayList<>();
        for (Object it : tree.query(shape.getEnvelopeInternal())) {
            if (shapes.get((Integer) it).intersects(shape)) {
                found.add((Integer) it);
            }
        }
        return found;
    }

    private static void print(String kind, String numbers, Geometry shape) {
        String hex = WKBWriter.toHex(new WKBWriter().write(shape));
        System.out.println(kind + " " + numbers + " " + shape.getArea() + " " + hex);
    }

    private void overlaps() {
        for (int one = 0; one < shapes.size(); one++) {
            for (int other : near(shapes.get(one))) {
                if (one < other) {
                    Geometry common =
                            OverlayNG.overlay(shapes.get(one), shapes.get(other), OverlayNG.INTERSECTION, grid);
                    if (common.getArea() > 0) {
                        print("overlap", numbers.get(one) + "," + numbers.get(other), common);
                    }
                }
            }
        }
    }

    private void gaps() {
        Geometry whole = UnaryUnionNG.union(shapes, grid);
        for (int part = 0; part < whole.getNumGeometries(); part++) {
            Polygon polygon = (Polygon) whole.getGeometryN(part);
            for (int hole = 0; hole < polygon.getNumInteriorRing(); hole++) {
                LineString ring = polygon.getInteriorRingN(hole);
                Geometry shape = ring.getFactory().createPolygon(ring.getCoordinateSequence());
                StringJoiner beside = new StringJoiner(",");
                for (int at : near(shape.buffer(Math.max(2 * distance, BESIDE)))) {
                    beside.add(numbers.get(at));
                }
                print("gap", beside.toString(), shape);
            }
        }
    }

    /** Reads a layer and prints its faults; the word is the distance. */
    public static void main(String[] words) throws Exception {
        JtsFaults faults = new JtsFaults(Double.parseDouble(words[0]));
        faults.read();
        faults.overlaps();
        faults.gaps();
    }
}
