import com.sun.source.tree.*;
import com.sun.source.util.JavacTask;
import com.sun.source.util.SourcePositions;
import com.sun.source.util.TreePath;
import com.sun.source.util.TreePathScanner;
import com.sun.source.util.TreeScanner;
import com.sun.source.util.Trees;
import java.io.BufferedReader;
import java.io.IOException;
import java.io.InputStreamReader;
import java.io.PrintStream;
import java.net.URI;
import java.nio.charset.StandardCharsets;
import java.nio.file.Files;
import java.nio.file.Path;
import java.nio.file.Paths;
import java.util.ArrayList;
import java.util.Arrays;
import java.util.HashMap;
import java.util.List;
import java.util.Map;
import java.util.TreeMap;
import java.util.regex.Matcher;
import java.util.regex.Pattern;
import javax.lang.model.element.Modifier;
import javax.lang.model.type.TypeKind;
import javax.lang.model.type.TypeMirror;
import javax.lang.model.util.Types;
import javax.tools.JavaCompiler;
import javax.tools.JavaFileObject;
import javax.tools.SimpleJavaFileObject;
import javax.tools.StandardJavaFileManager;
import javax.tools.ToolProvider;

/**
 * The rules for Java, over the tree that javac makes, with the types that it finds; the compiler of mutants, all in one process; and what tells which
 * statements a test reaches.
 *
 * <pre>
 *     java Rules.java --places SOURCES FILE .. for each place a line: the file, the rule, start, end, and what replaces it, parted by tabs;
 *                                              what the files name stands in the folder SOURCES
 *     java Rules.java --compile CLASSES MADE   compiles files against these classes; for each a line on standard input: a name, the file that
 *                                              stands for it and the file itself; its classes get into MADE/name; prints the name, and `built`
 *                                              or why not, parted by a tab
 *     java Rules.java --reach FILE ..          has each statement of a block in these files say that it was reached, which changes the files; for
 *                                              each a line: the file, its number, start and end before that; and so for methods, with `method`
 * </pre>
 *
 * Places are counted in units of UTF-16. In what replaces, a line's end, a tab and a backslash are written as \n, \t and \\.
 */
final class Rules extends TreePathScanner<Void, Void> {
    private static final Map<Tree.Kind, String[]> OPERATORS = new HashMap<>();
    private static final String[] WAKES = {"notify", "wake", "unlink", "unpark", "signal", "interrupt"};

    static {
        OPERATORS.put(Tree.Kind.LESS_THAN, new String[] {"bound", "<", "<="});
        OPERATORS.put(Tree.Kind.LESS_THAN_EQUAL, new String[] {"bound", "<=", "<"});
        OPERATORS.put(Tree.Kind.GREATER_THAN, new String[] {"bound", ">", ">="});
        OPERATORS.put(Tree.Kind.GREATER_THAN_EQUAL, new String[] {"bound", ">=", ">"});
        OPERATORS.put(Tree.Kind.EQUAL_TO, new String[] {"equal", "==", "!="});
        OPERATORS.put(Tree.Kind.NOT_EQUAL_TO, new String[] {"equal", "!=", "=="});
        OPERATORS.put(Tree.Kind.CONDITIONAL_AND, new String[] {"and/or", "&&", "||"});
        OPERATORS.put(Tree.Kind.CONDITIONAL_OR, new String[] {"and/or", "||", "&&"});
    }

    private final CompilationUnitTree unit;
    private final SourcePositions positions;
    private final Trees trees;
    private final Types types;
    private final String text;
    private final String file;
    private final PrintStream out;

    private Rules(CompilationUnitTree unit, JavacTask task, PrintStream out) throws IOException {
        this.unit = unit;
        this.trees = Trees.instance(task);
        this.types = task.getTypes();
        this.positions = trees.getSourcePositions();
        this.text = unit.getSourceFile().getCharContent(true).toString();
        this.file = Paths.get(unit.getSourceFile().toUri()).toString();
        this.out = out;
    }

    public static void main(String[] words) throws IOException {
        PrintStream out = new PrintStream(System.out, true, "UTF-8");
        if (words[0].equals("--places")) {
            places(words[1], Arrays.asList(words).subList(2, words.length), out);
        } else if (words[0].equals("--reach")) {
            reach(Arrays.asList(words).subList(1, words.length), out);
        } else {
            compile(words[1], Paths.get(words[2]), out);
        }
    }

    private static void places(String sources, List<String> files, PrintStream out) throws IOException {
        JavaCompiler compiler = ToolProvider.getSystemJavaCompiler();
        StandardJavaFileManager manager = compiler.getStandardFileManager(null, null, StandardCharsets.UTF_8);
        List<String> options = Arrays.asList("-proc:none", "-nowarn", "-Xlint:none", "-sourcepath", sources);
        JavacTask task = (JavacTask) compiler.getTask(null, manager, it -> {}, options, null, manager.getJavaFileObjectsFromStrings(files));
        List<CompilationUnitTree> units = new ArrayList<>();
        task.parse().forEach(units::add);
        task.analyze();
        for (CompilationUnitTree unit : units) {
            new Rules(unit, task, out).scan(unit, null);
        }
    }

    private static void reach(List<String> files, PrintStream out) throws IOException {
        JavaCompiler compiler = ToolProvider.getSystemJavaCompiler();
        StandardJavaFileManager manager = compiler.getStandardFileManager(null, null, StandardCharsets.UTF_8);
        JavacTask task = (JavacTask) compiler.getTask(null, manager, it -> {}, Arrays.asList("-proc:none"), null,
                manager.getJavaFileObjectsFromStrings(files));
        Reach reach = new Reach(Trees.instance(task).getSourcePositions(), out);
        for (CompilationUnitTree unit : task.parse()) {
            reach.into(unit);
        }
    }

    /** Puts a call before each statement of a block, but for a constructor's own first call. */
    private static final class Reach extends TreeScanner<Void, CompilationUnitTree> {
        private final SourcePositions positions;
        private final PrintStream out;
        private int count;
        private TreeMap<Integer, Integer> places;
        private String file;

        Reach(SourcePositions positions, PrintStream out) {
            this.positions = positions;
            this.out = out;
        }

        void into(CompilationUnitTree unit) throws IOException {
            places = new TreeMap<>();
            Path path = Paths.get(unit.getSourceFile().toUri());
            file = path.toString();
            scan(unit, unit);
            StringBuilder text = new StringBuilder(unit.getSourceFile().getCharContent(true));
            places.descendingMap().forEach((at, number) -> text.insert(at, "cf.internal.Reached.at(" + number + "); "));
            Files.write(path, text.toString().getBytes(StandardCharsets.UTF_8));
        }

        private void tell(Object number, Tree tree, CompilationUnitTree unit) {
            out.println(file + "\t" + number + "\t" + positions.getStartPosition(unit, tree) + "\t" + positions.getEndPosition(unit, tree));
        }

        private void statements(List<? extends StatementTree> all, CompilationUnitTree unit) {
            for (StatementTree each : all) {
                if (!each.toString().matches("(?s)(this|super)\\(.*")) {
                    places.put((int) positions.getStartPosition(unit, each), count);
                    tell(count++, each, unit);
                }
            }
        }

        @Override
        public Void visitBlock(BlockTree node, CompilationUnitTree unit) {
            statements(node.getStatements(), unit);
            return super.visitBlock(node, unit);
        }

        @Override
        public Void visitCase(CaseTree node, CompilationUnitTree unit) {
            statements(node.getStatements(), unit);
            return super.visitCase(node, unit);
        }

        @Override
        public Void visitMethod(MethodTree node, CompilationUnitTree unit) {
            tell("method", node, unit);
            return super.visitMethod(node, unit);
        }
    }

    // Where things stand

    private int start(Tree tree) {
        return (int) positions.getStartPosition(unit, tree);
    }

    private int end(Tree tree) {
        return (int) positions.getEndPosition(unit, tree);
    }

    private String source(Tree tree) {
        return text.substring(start(tree), end(tree));
    }

    private void place(String rule, int start, int end, String with) {
        if (start >= 0 && end >= start) {
            String escaped = with.replace("\\", "\\\\").replace("\n", "\\n").replace("\t", "\\t");
            out.println(file + "\t" + rule + "\t" + start + "\t" + end + "\t" + escaped);
        }
    }

    private void replace(String rule, Tree tree, String with) {
        if (end(tree) >= 0) {
            place(rule, start(tree), end(tree), with);
        }
    }

    private TypeMirror type(Tree tree) {
        return trees.getTypeMirror(new TreePath(getCurrentPath(), tree));
    }

    /** What a function of a type answers where it gives up. */
    private static String nothing(TypeMirror type) {
        if (type == null || !type.getKind().isPrimitive()) {
            return "null";
        }
        return type.getKind() == TypeKind.BOOLEAN ? "false" : "0";
    }

    // Conditions

    private void condition(ExpressionTree test) {
        ExpressionTree bare = test instanceof ParenthesizedTree ? ((ParenthesizedTree) test).getExpression() : test;
        if (!(bare instanceof LiteralTree)) {
            replace("negate", bare, "!(" + source(bare) + ")");
        }
    }

    @Override
    public Void visitIf(IfTree node, Void none) {
        condition(node.getCondition());
        if (node.getElseStatement() == null) {
            replace("never", ((ParenthesizedTree) node.getCondition()).getExpression(), "false");
        } else if (!(node.getElseStatement() instanceof IfTree)) {
            place("else", end(node.getThenStatement()), end(node.getElseStatement()), "");
        }
        return super.visitIf(node, none);
    }

    @Override
    public Void visitWhileLoop(WhileLoopTree node, Void none) {
        condition(node.getCondition());
        return super.visitWhileLoop(node, none);
    }

    @Override
    public Void visitDoWhileLoop(DoWhileLoopTree node, Void none) {
        condition(node.getCondition());
        return super.visitDoWhileLoop(node, none);
    }

    @Override
    public Void visitConditionalExpression(ConditionalExpressionTree node, Void none) {
        condition(node.getCondition());
        return super.visitConditionalExpression(node, none);
    }

    /** Whether an expression is negated as a whole already. */
    private boolean isCondition() {
        TreePath above = getCurrentPath().getParentPath();
        Tree tree = above.getLeaf();
        if (tree instanceof ParenthesizedTree) {
            Tree outer = above.getParentPath().getLeaf();
            return outer instanceof IfTree || outer instanceof WhileLoopTree || outer instanceof DoWhileLoopTree;
        }
        return tree instanceof ReturnTree
                || tree instanceof ConditionalExpressionTree
                        && ((ConditionalExpressionTree) tree).getCondition() == getCurrentPath().getLeaf();
    }

    @Override
    public Void visitBinary(BinaryTree node, Void none) {
        String[] it = OPERATORS.get(node.getKind());
        if (it != null && !(it[0].equals("equal") && isCondition())) {
            int from = end(node.getLeftOperand());
            Matcher found = Pattern.compile(Pattern.quote(it[1])).matcher(text.substring(from, start(node.getRightOperand())));
            if (found.find()) {
                place(it[0], from + found.start(), from + found.end(), it[2]);
            }
        }
        return super.visitBinary(node, none);
    }

    // Constants and calls

    @Override
    public Void visitLiteral(LiteralTree node, Void none) {
        if (node.getValue() instanceof Boolean) {
            replace("constant", node, String.valueOf(!(Boolean) node.getValue()));
        } else if (node.getValue() instanceof Integer) {
            replace("constant", node, String.valueOf((Integer) node.getValue() + 1));
        } else if (node.getValue() instanceof Long) {
            replace("constant", node, ((Long) node.getValue() + 1) + "L");
        }
        return null;
    }

    @Override
    public Void visitAnnotation(AnnotationTree node, Void none) {
        return null;
    }

    private void swap(List<? extends ExpressionTree> given) {
        for (int k = 0; k + 1 < given.size(); k++) {
            ExpressionTree one = given.get(k);
            ExpressionTree other = given.get(k + 1);
            TypeMirror type = type(one);
            TypeMirror beside = type(other);
            boolean isKnown = type != null && beside != null && type.getKind() != TypeKind.ERROR && type.getKind() != TypeKind.NULL;
            if (isKnown && types.isSameType(type, beside) && !source(one).equals(source(other))) {
                place("swap", start(one), end(other), source(other) + text.substring(end(one), start(other)) + source(one));
            }
        }
    }

    @Override
    public Void visitMethodInvocation(MethodInvocationTree node, Void none) {
        swap(node.getArguments());
        return super.visitMethodInvocation(node, none);
    }

    @Override
    public Void visitNewClass(NewClassTree node, Void none) {
        swap(node.getArguments());
        return super.visitNewClass(node, none);
    }

    // Statements

    /** The rule by which a statement is dropped: by the name that it calls last, and whether it stands in a `finally`. */
    private String statementRule(ExpressionTree said) {
        String name = said instanceof MethodInvocationTree ? ((MethodInvocationTree) said).getMethodSelect().toString() : "";
        String last = name.substring(name.lastIndexOf('.') + 1).toLowerCase();
        if (Arrays.stream(WAKES).anyMatch(last::contains)) {
            return "wake";
        }
        Tree block = getCurrentPath().getParentPath().getLeaf();
        Tree around = getCurrentPath().getParentPath().getParentPath().getLeaf();
        return around instanceof TryTree && ((TryTree) around).getFinallyBlock() == block ? "finally" : "statement";
    }

    @Override
    public Void visitExpressionStatement(ExpressionStatementTree node, Void none) {
        ExpressionTree said = node.getExpression();
        String name = said instanceof MethodInvocationTree ? ((MethodInvocationTree) said).getMethodSelect().toString() : "";
        Tree above = getCurrentPath().getParentPath().getLeaf();
        boolean isUpdate = above instanceof ForLoopTree && ((ForLoopTree) above).getUpdate().contains(node);
        if (!name.equals("this") && !name.equals("super") && !isUpdate && !(above instanceof LambdaExpressionTree)) {
            replace(statementRule(said), node, ";");
        }
        return super.visitExpressionStatement(node, none);
    }

    @Override
    public Void visitBreak(BreakTree node, Void none) {
        replace("statement", node, ";");
        return null;
    }

    @Override
    public Void visitContinue(ContinueTree node, Void none) {
        replace("statement", node, ";");
        return null;
    }

    @Override
    public Void visitThrow(ThrowTree node, Void none) {
        replace("statement", node, ";");
        return super.visitThrow(node, none);
    }

    @Override
    public Void visitReturn(ReturnTree node, Void none) {
        ExpressionTree said = node.getExpression();
        if (said == null) {
            replace("statement", node, ";");
            return null;
        }
        TypeMirror type = type(said);
        if (type != null && type.getKind() == TypeKind.BOOLEAN) {
            condition(said);
        } else if (!source(said).equals(nothing(type))) {
            replace("return", said, nothing(type));
        }
        return super.visitReturn(node, none);
    }

    @Override
    public Void visitSynchronized(SynchronizedTree node, Void none) {
        place("with", start(node), start(node.getBlock()), "");
        return super.visitSynchronized(node, none);
    }

    @Override
    public Void visitMethod(MethodTree node, Void none) {
        if (start(node) < 0 || end(node) < 0) {
            return null; // one that javac made
        }
        if (node.getModifiers().getFlags().contains(Modifier.SYNCHRONIZED)) {
            int at = text.indexOf("synchronized", start(node.getModifiers()));
            place("with", at, at + "synchronized".length(), "");
        }
        boolean isVoid = node.getReturnType() != null && node.getReturnType().toString().equals("void");
        if (isVoid && node.getBody() != null && node.getBody().getStatements().size() > 1) {
            int at = start(node.getBody().getStatements().get(0));
            place("early", at, at, "if (true) return; ");
        }
        return super.visitMethod(node, none);
    }

    // The compiler

    private static void compile(String classes, Path made, PrintStream out) throws IOException {
        JavaCompiler compiler = ToolProvider.getSystemJavaCompiler();
        StandardJavaFileManager manager = compiler.getStandardFileManager(null, null, StandardCharsets.UTF_8);
        BufferedReader lines = new BufferedReader(new InputStreamReader(System.in, StandardCharsets.UTF_8));
        for (String line; (line = lines.readLine()) != null;) {
            String[] words = line.split("\t");
            String text = new String(Files.readAllBytes(Paths.get(words[1])), StandardCharsets.UTF_8);
            JavaFileObject source = new SimpleJavaFileObject(URI.create("string:///" + words[2]), JavaFileObject.Kind.SOURCE) {
                @Override
                public CharSequence getCharContent(boolean ignoreErrors) {
                    return text;
                }
            };
            Path folder = made.resolve(words[0]);
            Files.createDirectories(folder);
            StringBuilder why = new StringBuilder();
            List<String> options = Arrays.asList("-proc:none", "-nowarn", "-Xlint:none", "-source", "8", "-target", "8", "-cp", classes, "-d",
                    folder.toString());
            boolean isBuilt = compiler.getTask(null, manager, it -> {
                if (it.getKind() == javax.tools.Diagnostic.Kind.ERROR && why.length() == 0) {
                    why.append(it.getMessage(null).replace('\n', ' '));
                }
            }, options, null, Arrays.asList(source)).call();
            out.println(words[0] + "\t" + (isBuilt ? "built" : why));
        }
    }
}
