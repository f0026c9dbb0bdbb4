actor Sensor {
  let number: Int
  var degrees = 20
  init(number: Int) {
    self.number = number
  }
  func measure(_ now: Int) {
    degrees = now
  }
  nonisolated func label(from first: Int) -> Int {
    return first + degrees
  }
}
func show(_ sensor: Sensor) {
  print(sensor.label(from: 100))
}
@main struct App {
  static func main() async {
    let sensor = Sensor(number: 7)
    let measuring = Task.detached { await sensor.measure(25) }
    show(sensor)
    await measuring.value
    print(await sensor.degrees)
  }
}
