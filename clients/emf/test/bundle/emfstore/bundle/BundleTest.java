package emfstore.bundle;

import java.io.File;
import java.io.IOException;
import java.io.InputStream;
import java.io.OutputStream;
import java.nio.file.Files;
import java.nio.file.Path;
import java.util.ArrayList;
import java.util.List;
import java.util.Map;
import java.util.ServiceLoader;
import java.util.jar.Attributes;
import java.util.jar.JarOutputStream;
import java.util.jar.Manifest;
import java.util.zip.ZipEntry;
import org.osgi.framework.Bundle;
import org.osgi.framework.BundleException;
import org.osgi.framework.Constants;
import org.osgi.framework.launch.Framework;
import org.osgi.framework.launch.FrameworkFactory;

/** Starts Equinox with EMF's bundles, the client's jar and a bundle that uses it. */
public final class BundleTest {
    private static final String PROBE = "emfstore/bundle/Probe.class";
    private static final long MILLIS_TO_STOP = 20_000;

    private BundleTest() {
    }

    /** The words: the built program, an empty folder, the metamodel of parts, and the jars of EMF and of the client. */
    public static void main(String[] words) throws IOException, BundleException, InterruptedException {
        Path folder = Path.of(words[1]);
        Path store = Files.createDirectory(folder.resolve("shared"));
        Framework framework = ServiceLoader.load(FrameworkFactory.class).findFirst().orElseThrow().newFramework(Map.of(
                Constants.FRAMEWORK_STORAGE, folder.resolve("cache").toString(),
                "probe.program", words[0], "probe.folder", store.toString(), "probe.ecore", words[2]));
        framework.start();
        List<Bundle> bundles = new ArrayList<>();
        for (String jar : words[3].split(File.pathSeparator)) {
            bundles.add(framework.getBundleContext().installBundle(Path.of(jar).toUri().toString()));
        }
        bundles.add(framework.getBundleContext().installBundle(probe(folder.resolve("probe.jar")).toUri().toString()));
        for (Bundle bundle : bundles) {
            bundle.start();
        }
        String states = bundles.stream().map(it -> it.getSymbolicName() + " " + it.getState()).toList().toString();
        if (bundles.stream().anyMatch(it -> it.getState() != Bundle.ACTIVE)) {
            throw new AssertionError("not started: " + states);
        }
        framework.stop();
        framework.waitForStop(MILLIS_TO_STOP);
        System.out.println("a bundle beside " + (bundles.size() - 1) + " others");
    }

    private static Path probe(Path file) throws IOException {
        Manifest manifest = new Manifest();
        Attributes main = manifest.getMainAttributes();
        main.put(Attributes.Name.MANIFEST_VERSION, "1.0");
        main.putValue(Constants.BUNDLE_MANIFESTVERSION, "2");
        main.putValue(Constants.BUNDLE_SYMBOLICNAME, "emfstore.bundle");
        main.putValue(Constants.BUNDLE_ACTIVATOR, "emfstore.bundle.Probe");
        main.putValue(Constants.REQUIRE_BUNDLE, "emfstore.client,org.eclipse.emf.ecore");
        main.putValue(Constants.IMPORT_PACKAGE, "org.osgi.framework");
        try (OutputStream out = Files.newOutputStream(file); JarOutputStream jar = new JarOutputStream(out, manifest);
                InputStream probe = BundleTest.class.getResourceAsStream("/" + PROBE)) {
            jar.putNextEntry(new ZipEntry(PROBE));
            probe.transferTo(jar);
        }
        return file;
    }
}
