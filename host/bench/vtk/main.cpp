// vtk_bench GREY RUNS VALUE..: the median nanoseconds of VTK's filters on one thread, a line each with the filter's name, on a volume of 64 samples a
// side from standard input. Points and triangles only, as the library gives them: no normals, gradients or scalars. The filters on a mesh take
// vtkFlyingEdges3D's at GREY. Three more lines: the triangles of that mesh, its mean curvature, and as tries the nanoseconds of vtkFlyingEdges3D at all
// the VALUEs, one after the other.
#include <vtkCurvatures.h>
#include <vtkDataArray.h>
#include <vtkFlyingEdges3D.h>
#include <vtkImageData.h>
#include <vtkNew.h>
#include <vtkPointData.h>
#include <vtkPolyData.h>
#include <vtkPolyDataConnectivityFilter.h>
#include <vtkSMPTools.h>
#include <vtkSmoothPolyDataFilter.h>

#include <algorithm>
#include <chrono>
#include <cmath>
#include <cstdint>
#include <cstdio>
#include <cstdlib>
#include <vector>

static const int side = 64;

template <class Job> static void timed(const char *name, Job job, int runs) {
  std::vector<double> times;
  for (int i = 0; i < runs; i++) {
    auto start = std::chrono::steady_clock::now();
    job();
    std::chrono::duration<double, std::nano> time = std::chrono::steady_clock::now() - start;
    times.push_back(time.count());
  }
  std::sort(times.begin(), times.end());
  std::printf("%s %f\n", name, times[runs / 2]);
}

template <class Filter> static void update(Filter *filter) {
  filter->Modified();
  filter->Update();
}

template <class Filter> static void median(const char *name, Filter *filter, int runs) {
  timed(name, [filter] { update(filter); }, runs);
}

static void surface(vtkFlyingEdges3D *filter, vtkImageData *volume, double grey, int runs) {
  filter->SetInputData(volume);
  filter->SetValue(0, grey);
  filter->ComputeNormalsOff();
  filter->ComputeGradientsOff();
  filter->ComputeScalarsOff();
  median("vtkFlyingEdges3D", filter, runs);
}

// About as many surfaces as there are runs of one.
static void tries(vtkFlyingEdges3D *filter, const std::vector<double> &values, int runs) {
  int count = static_cast<int>(values.size());
  auto all = [filter, &values] {
    for (double value : values) {
      filter->SetValue(0, value);
      update(filter);
    }
  };
  timed("tries", all, (runs + count - 1) / count);
}

// Ten rounds, half of the way to the neighbours' mean in each, as the library's weight 128; no edge is treated as a feature.
static void smooth(vtkPolyData *mesh, int runs) {
  vtkNew<vtkSmoothPolyDataFilter> filter;
  filter->SetInputData(mesh);
  filter->SetNumberOfIterations(10);
  filter->SetRelaxationFactor(0.5);
  filter->SetConvergence(0);
  filter->FeatureEdgeSmoothingOff();
  filter->BoundarySmoothingOff();
  median("vtkSmoothPolyDataFilter", filter.Get(), runs);
}

// Every region numbered; no volumes and no boxes, which the library's list has.
static void connectivity(vtkPolyData *mesh, int runs) {
  vtkNew<vtkPolyDataConnectivityFilter> filter;
  filter->SetInputData(mesh);
  filter->SetExtractionModeToAllRegions();
  filter->ColorRegionsOn();
  median("vtkPolyDataConnectivityFilter", filter.Get(), runs);
}

// The time, and the mean over all points of the size of the mean curvature, a voxel.
static void curvatures(vtkPolyData *mesh, int runs) {
  vtkNew<vtkCurvatures> filter;
  filter->SetInputData(mesh);
  filter->SetCurvatureTypeToMean();
  median("vtkCurvatures", filter.Get(), runs);
  vtkDataArray *found = filter->GetOutput()->GetPointData()->GetArray("Mean_Curvature");
  double sum = 0;
  for (vtkIdType i = 0; i < found->GetNumberOfTuples(); i++)
    sum += std::fabs(found->GetTuple1(i));
  std::printf("mean %f\n", sum / static_cast<double>(found->GetNumberOfTuples()));
}

int main(int argc, char **argv) {
  if (argc < 4)
    return 2;
  vtkSMPTools::Initialize(1);
  vtkNew<vtkImageData> volume;
  volume->SetDimensions(side, side, side);
  volume->AllocateScalars(VTK_UNSIGNED_SHORT, 1);
  size_t samples = static_cast<size_t>(side) * side * side;
  if (std::fread(volume->GetScalarPointer(), sizeof(uint16_t), samples, stdin) != samples)
    return 1;
  int runs = std::max(1, std::atoi(argv[2]));
  int fewer = (runs + 9) / 10;
  vtkNew<vtkFlyingEdges3D> edges;
  surface(edges.Get(), volume, std::atof(argv[1]), runs);
  std::printf("triangles %lld\n", static_cast<long long>(edges->GetOutput()->GetNumberOfPolys()));
  smooth(edges->GetOutput(), fewer);
  connectivity(edges->GetOutput(), fewer);
  curvatures(edges->GetOutput(), fewer);
  std::vector<double> values;
  for (int i = 3; i < argc; i++)
    values.push_back(std::atof(argv[i]));
  tries(edges.Get(), values, runs);
  return 0;
}
