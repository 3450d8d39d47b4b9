import java.lang.management.ManagementFactory;
import java.nio.file.Files;
import java.nio.file.Path;

import org.apache.jena.query.Dataset;
import org.apache.jena.query.DatasetFactory;
import org.apache.jena.query.Query;
import org.apache.jena.query.QueryCancelledException;
import org.apache.jena.query.QueryExecution;
import org.apache.jena.query.QueryExecutionFactory;
import org.apache.jena.query.QueryFactory;
import org.apache.jena.query.ReadWrite;
import org.apache.jena.query.ResultSet;
import org.apache.jena.riot.Lang;
import org.apache.jena.riot.RDFDataMgr;

/**
 * Times Apache Jena, in memory and warm, on what query_catalogue.py or shapes_catalogue.py wrote: java Jena.java KIND FOLDER NAME..
 *
 * <p>KIND is general or transactional, which of its two datasets in memory is asked. For each query a line: its name, the processor seconds of its thread
 * from the query's text to the last row, the best of many short means, and how many rows there are (of ASK one); dashes where it takes over two minutes.
 */
public final class Jena {
    private static final long WARM = 2_000_000_000L;
    private static final long LIMIT = 120_000L;
    private static final double SHORT = 2e7;
    private static final int ROUNDS = 30;

    private static long spent() {
        return ManagementFactory.getThreadMXBean().getCurrentThreadCpuTime();
    }

    private static int rows(Dataset dataset, String text) {
        Query query = QueryFactory.create(text);
        try (QueryExecution execution = QueryExecutionFactory.create(query, dataset)) {
            execution.setTimeout(LIMIT);
            if (query.isAskType()) {
                execution.execAsk();
                return 1;
            }
            int count = 0;
            for (ResultSet found = execution.execSelect(); found.hasNext(); count++) {
                found.nextBinding();
            }
            return count;
        }
    }

    /** The mean of so many runs of a query behind one another, in nanoseconds: the clock of a thread may be a coarse one. */
    private static double mean(Dataset dataset, String text, long times) {
        long before = spent();
        for (long time = 0; time < times; time++) {
            rows(dataset, text);
        }
        return (spent() - before) / (double) times;
    }

    /** Runs a query until it is warm, and a few times at least; then the best of many means over a fiftieth of a second. */
    private static String measured(Dataset dataset, String name, String text) {
        try {
            long begun = spent();
            double best = Double.MAX_VALUE;
            int warm = 0;
            for (; warm < 5 || spent() - begun < WARM; warm++) {
                best = Math.min(best, mean(dataset, text, 1));
            }
            long times = Math.min(1000, (long) (SHORT * warm / (spent() - begun)));
            for (int round = 0; round < ROUNDS && times > 1; round++) {
                double found = mean(dataset, text, times);
                best = round == 0 ? found : Math.min(best, found);
            }
            return String.format("%s %.7f %d", name, best / 1e9, rows(dataset, text));
        } catch (QueryCancelledException late) {
            return name + " - -";
        }
    }

    public static void main(String[] words) throws Exception {
        Dataset dataset = words[0].equals("general") ? DatasetFactory.createGeneral() : DatasetFactory.createTxnMem();
        Path folder = Path.of(words[1]);
        dataset.begin(ReadWrite.WRITE);
        RDFDataMgr.read(dataset, folder.resolve("data").toUri().toString(), Lang.NQUADS);
        dataset.commit();
        dataset.end();
        for (int place = 2; place < words.length; place++) {
            dataset.begin(ReadWrite.READ);
            System.out.println(measured(dataset, words[place], Files.readString(folder.resolve(words[place] + ".rq"))));
            dataset.end();
        }
    }
}
