import java.io.BufferedReader;
import java.io.IOException;
import java.io.InputStreamReader;
import java.nio.charset.StandardCharsets;
import java.util.ArrayList;
import java.util.Iterator;
import java.util.List;
import java.util.stream.Collectors;

import org.apache.jena.graph.Node;
import org.apache.jena.query.ARQ;
import org.apache.jena.query.Dataset;
import org.apache.jena.query.DatasetFactory;
import org.apache.jena.query.Query;
import org.apache.jena.query.QueryExecution;
import org.apache.jena.query.QueryExecutionFactory;
import org.apache.jena.query.QueryFactory;
import org.apache.jena.query.ReadWrite;
import org.apache.jena.query.ResultSet;
import org.apache.jena.riot.Lang;
import org.apache.jena.riot.RDFParser;
import org.apache.jena.riot.lang.LabelToNode;
import org.apache.jena.riot.system.StreamRDFLib;
import org.apache.jena.sparql.core.Quad;
import org.apache.jena.sparql.core.Var;
import org.apache.jena.sparql.engine.binding.Binding;
import org.apache.jena.sparql.engine.ref.QueryEngineRef;
import org.apache.jena.sys.JenaSystem;
import org.apache.jena.update.UpdateAction;

/**
 * Answers what answers.py asks, by Apache Jena's reference evaluator, which evaluates the algebra as it is written: no optimization.
 *
 * <p>A line {@code data} begins N-Quads that a line {@code end} ends. Each other line is a query or an update of these, by its first letter. The answer is
 * a line with a number and so many lines: the rows with their terms between tabs, the quads that an update leaves, or of ASK one line; or a line that
 * begins with {@code fault}.
 */
public final class Answers {
    private static final String STRING = "http://www.w3.org/2001/XMLSchema#string";

    /** A term as N-Quads has it, whose texts need no escapes. */
    private static String text(Node term) {
        if (term == null) {
            return "";
        }
        if (term.isBlank()) {
            return "_:" + term.getBlankNodeLabel();
        }
        if (term.isURI()) {
            return "<" + term.getURI() + ">";
        }
        String quoted = '"' + term.getLiteralLexicalForm() + '"';
        if (!term.getLiteralLanguage().isEmpty()) {
            return quoted + "@" + term.getLiteralLanguage();
        }
        return term.getLiteralDatatypeURI().equals(STRING) ? quoted : quoted + "^^<" + term.getLiteralDatatypeURI() + ">";
    }

    private static Dataset loaded(String lines) {
        Dataset dataset = DatasetFactory.createTxnMem();
        dataset.begin(ReadWrite.WRITE);
        RDFParser.create().fromString(lines).lang(Lang.NQUADS).labelToNode(LabelToNode.createUseLabelAsGiven())
                .parse(StreamRDFLib.dataset(dataset.asDatasetGraph()));
        dataset.commit();
        return dataset;
    }

    private static List<String> rows(Dataset dataset, String text) {
        Query query = QueryFactory.create(text);
        dataset.begin(ReadWrite.READ);
        try (QueryExecution execution = QueryExecutionFactory.create(query, dataset)) {
            if (query.isAskType()) {
                return List.of(String.valueOf(execution.execAsk()));
            }
            List<String> rows = new ArrayList<>();
            ResultSet found = execution.execSelect();
            while (found.hasNext()) {
                Binding row = found.nextBinding();
                rows.add(found.getResultVars().stream().map(it -> text(row.get(Var.alloc(it)))).collect(Collectors.joining("\t")));
            }
            return rows;
        } finally {
            dataset.end();
        }
    }

    private static List<String> left(Dataset dataset, String text) {
        List<String> quads = new ArrayList<>();
        dataset.begin(ReadWrite.WRITE);
        UpdateAction.parseExecute(text, dataset);
        for (Iterator<Quad> found = dataset.asDatasetGraph().find(); found.hasNext();) {
            Quad quad = found.next();
            String triple = text(quad.getSubject()) + " " + text(quad.getPredicate()) + " " + text(quad.getObject());
            quads.add(quad.isDefaultGraph() ? triple + " ." : triple + " " + text(quad.getGraph()) + " .");
        }
        dataset.commit();
        return quads;
    }

    public static void main(String[] words) throws IOException {
        JenaSystem.init();
        QueryEngineRef.register();
        ARQ.getContext().setFalse(ARQ.optimization);
        BufferedReader input = new BufferedReader(new InputStreamReader(System.in, StandardCharsets.UTF_8));
        String lines = "";
        for (String line = input.readLine(); line != null; line = input.readLine()) {
            if (line.equals("data")) {
                StringBuilder read = new StringBuilder();
                for (line = input.readLine(); !line.equals("end"); line = input.readLine()) {
                    read.append(line).append('\n');
                }
                lines = read.toString();
                continue;
            }
            try {
                boolean asks = line.startsWith("SELECT") || line.startsWith("ASK");
                List<String> answer = asks ? rows(loaded(lines), line) : left(loaded(lines), line);
                System.out.println(answer.size());
                answer.forEach(System.out::println);
            } catch (RuntimeException fault) {
                System.out.println("fault " + fault.toString().replace('\n', ' '));
            }
        }
    }
}
