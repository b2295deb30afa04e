// The checks "gap" and "overlap" of QGIS's plugin Geometry Checker, without its window: Debian's QGIS 3.22 offers them
// neither by qgis_process nor in Python. It prints a line KIND IDENTIFIERS AREA SHAPE for each error,
// the shape as hexadecimal well-known binary.
//
//     qgis_checker LAYER DECIMALS
//
// DECIMALS is the plugin's tolerance; no gap or overlap is left out for its size.
#include <cstdio>
#include <string>

#include <qgsapplication.h>
#include <qgsfeedback.h>
#include <qgsgeometrycheckcontext.h>
#include <qgsgeometrycheckerror.h>
#include <qgsgeometrygapcheck.h>
#include <qgsgeometryoverlapcheck.h>
#include <qgsproject.h>
#include <qgsvectordataproviderfeaturepool.h>
#include <qgsvectorlayer.h>

using Pools = QMap<QString, QgsFeaturePool *>;

static std::string beside( const QgsGeometryCheckError *error, const QString &layer )
{
  std::string identifiers;
  if ( const auto *overlap = dynamic_cast<const QgsGeometryOverlapCheckError *>( error ) )
    return std::to_string( overlap->featureId() ) + "," + std::to_string( overlap->overlappedFeature().featureId() );
  if ( const auto *gap = dynamic_cast<const QgsGeometryGapCheckError *>( error ) )
    for ( QgsFeatureId id : gap->neighbors().value( layer ) )
      identifiers += ( identifiers.empty() ? "" : "," ) + std::to_string( id );
  return identifiers;
}

static void report( const char *kind, const QgsGeometryCheck &check, const Pools &pools, const QString &layer )
{
  QList<QgsGeometryCheckError *> errors;
  QStringList messages;
  QgsFeedback feedback;
  check.collectErrors( pools, errors, messages, &feedback );
  for ( const QgsGeometryCheckError *error : errors )
  {
    std::printf( "%s %s %.17g %s\n", kind, beside( error, layer ).c_str(), error->value().toDouble(),
                 error->geometry().asWkb().toHex().constData() );
  }
}

int main( int count, char **words )
{
  QgsApplication application( count, words, false );
  QgsApplication::initQgis();
  QgsVectorLayer layer( QString( words[1] ) + "|layername=parcels", "parcels", "ogr" );
  if ( count != 3 || !layer.isValid() )
    return 2;
  QgsVectorDataProviderFeaturePool pool( &layer );
  const Pools pools { { layer.id(), &pool } };
  QgsGeometryCheckContext context( std::stoi( words[2] ), layer.crs(), QgsProject::instance()->transformContext(),
                                   QgsProject::instance() );
  report( "gap", QgsGeometryGapCheck( &context, { { "gapThreshold", 0.0 } } ), pools, layer.id() );
  report( "overlap", QgsGeometryOverlapCheck( &context, { { "maxOverlapArea", 0.0 } } ), pools, layer.id() );
  return 0;
}
