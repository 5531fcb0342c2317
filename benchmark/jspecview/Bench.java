/*
 * JSpecView's JCAMP-DX reader (Debian's libjmol-java) beside the library, for benchmark/others:
 *     Bench time FOLDER COUNT POINTS LAST   decodes the bodies FOLDER/0 .. in turn; nanoseconds a byte, the least and
 *                                           the median of nine, and how many points are not those of the bodies
 *     Bench answer FILE                     reads a file, and prints its ordinates and what it logs
 * It stands in JSpecView's own package, since the decompressor's tokenizer is for that package only.
 */
package jspecview.source;

import java.io.BufferedReader;
import java.io.ByteArrayInputStream;
import java.io.StringReader;
import java.lang.management.ManagementFactory;
import java.nio.charset.StandardCharsets;
import java.nio.file.Files;
import java.nio.file.Path;
import java.util.Arrays;
import java.util.List;
import javajs.util.SB;
import jspecview.common.Coordinate;

public class Bench {
    static final int WARM_UP = 40, ROUNDS = 9, TIMES = 5;

    /* A body's points, by the decompressor alone; what it finds wrong goes to the log. */
    static Coordinate[] decode(String body, double last, int points, SB log) {
        JDXSourceStreamTokenizer lines = new JDXSourceStreamTokenizer(new BufferedReader(new StringReader(body)));
        return new JDXDecompressor(lines, 0, last, 1, 1, points).decompressData(log);
    }

    /* How many of the ordinates that a body was made from are decoded as something else, the missing ones left out. */
    static int differing(Coordinate[] decoded, List<String> ordinates) {
        int count = Math.abs(decoded.length - ordinates.size());
        for (int i = 0; i < Math.min(decoded.length, ordinates.size()); i++)
            if (!ordinates.get(i).equals("?") && decoded[i].getYVal() != Double.parseDouble(ordinates.get(i)))
                count++;
        return count;
    }

    static void time(String folder, int count, int points, double last) throws Exception {
        String[] bodies = new String[count];
        long bytes = 0;
        int wrong = 0;
        for (int k = 0; k < count; k++) {
            bodies[k] = Files.readString(Path.of(folder, "" + k), StandardCharsets.ISO_8859_1);
            bytes += bodies[k].length();
            wrong += differing(decode(bodies[k], last, points, new SB()),
                Files.readAllLines(Path.of(folder, k + ".ordinates")));
        }
        double[] taken = new double[ROUNDS];
        for (int round = -WARM_UP; round < ROUNDS; round++) {
            long before = ManagementFactory.getThreadMXBean().getCurrentThreadCpuTime();
            for (int i = 0; i < TIMES; i++)
                for (String body : bodies)
                    if (decode(body, last, points, new SB()).length == 0)
                        throw new Exception("no points");
            if (round >= 0)
                taken[round] = (double) (ManagementFactory.getThreadMXBean().getCurrentThreadCpuTime() - before)
                    / TIMES / bytes;
        }
        Arrays.sort(taken);
        System.out.printf("%.3f %.3f %d%n", taken[0], taken[ROUNDS / 2], wrong);
    }

    static void answer(String file) throws Exception {
        JDXSource source;
        try {
            source = JDXReader.createJDXSourceFromStream(
                new ByteArrayInputStream(Files.readAllBytes(Path.of(file))), false, false, Float.NaN);
        } catch (Throwable e) {
            System.out.println("throws " + e);
            return;
        }
        StringBuilder line = new StringBuilder();
        for (Coordinate c : source.getJDXSpectrum(0).getXYCoords())
            line.append(c == null ? "null" : c.getYVal() == Math.rint(c.getYVal()) && Math.abs(c.getYVal()) < 1e15
                ? "" + (long) c.getYVal() : "" + c.getYVal()).append(' ');
        String log = source.getErrorLog();
        System.out.println(line.toString().trim() + (log == null || log.isBlank() || log.startsWith("No Errors") ? ""
            : "; logs: " + log.strip().replaceAll("\\s+", " ").replaceAll(" stream damaged.*", "")));
    }

    public static void main(String[] words) throws Exception {
        org.jmol.util.Logger.setLogLevel(0); // what it logs of a source is in the error log
        if (words[0].equals("time"))
            time(words[1], Integer.parseInt(words[2]), Integer.parseInt(words[3]), Double.parseDouble(words[4]));
        else
            for (int k = 1; k < words.length; k++)
                answer(words[k]);
    }
}
