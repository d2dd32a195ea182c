import java.io.File;
import java.io.IOException;
import java.nio.charset.StandardCharsets;
import java.util.Arrays;
import java.util.List;
import javax.tools.JavaCompiler;
import javax.tools.StandardJavaFileManager;
import javax.tools.StandardLocation;
import javax.tools.ToolProvider;

/**
 * Compiles one text after another in one run of the compiler: AllVariants FOLDER, of which each folder has a text Variant.java.
 * The classes of each come into a folder of their own. Prints the microseconds from the first text to the last.
 */
public final class AllVariants {
    private AllVariants() {}

    public static void main(String[] words) throws IOException {
        File[] folders = new File(words[0]).listFiles(File::isDirectory);
        Arrays.sort(folders);
        JavaCompiler compiler = ToolProvider.getSystemJavaCompiler();
        try (StandardJavaFileManager files = compiler.getStandardFileManager(null, null, StandardCharsets.UTF_8)) {
            files.setLocation(StandardLocation.CLASS_PATH, List.of());
            long began = System.nanoTime();
            for (File folder : folders) {
                compile(compiler, files, folder);
            }
            System.out.println((System.nanoTime() - began) / 1000);
        }
    }

    /** Compiles the text of a folder, and ends the run where it is refused. */
    private static void compile(JavaCompiler compiler, StandardJavaFileManager files, File folder) throws IOException {
        File classes = new File(folder, "classes");
        classes.mkdir();
        files.setLocation(StandardLocation.CLASS_OUTPUT, List.of(classes));
        var texts = files.getJavaFileObjects(new File(folder, "Variant.java"));
        if (!compiler.getTask(null, files, null, List.of("-proc:none"), null, texts).call()) {
            System.exit(1);
        }
    }
}
