import cf.service.Meter;
import cf.service.Request;
import cf.service.Service;
import cf.service.Stage;
import java.lang.management.ManagementFactory;
import java.util.Arrays;
import javax.management.MBeanServer;
import javax.management.ObjectName;

public class Metered {
    public static void main(String[] args) throws Exception {
        Meter meter = new Meter();
        Service service = new Service().withMeter(meter);
        MBeanServer beans = ManagementFactory.getPlatformMBeanServer();
        ObjectName shop = new ObjectName("cf:type=Meter,name=shop");
        beans.registerMBean(meter, shop); // for JMX; Prometheus reads meter.text()
        try (Request request = service.request("order 17")) {
            Stage<String> approval = request.<String>promise().named("approval");
            Stage<String> shipped = approval.thenApply(by -> "shipped for " + by).named("ship");
            meter.openRequests().forEach(open -> System.out.println(open.toString().replaceAll(" for [0-9.]+ s", "")));
            System.out.println(beans.getAttribute(shop, "OpenPromises") + " promise is open");
            approval.complete("Ada");
            System.out.println(shipped.join());
        }
        while (meter.getEndedRequests() == 0) {
            Thread.sleep(10);
        }
        Arrays.stream(meter.text().split("\n")).filter(line -> line.matches("cf_[a-z_]+_count.*")).forEach(System.out::println);
    }
}
